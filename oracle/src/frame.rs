//! Stands in for crates/powerlink-rs/src/frame, which is not at hand.

pub mod basic {
    /// Ordered by its bytes in wire order, the first one first.
    #[derive(Debug, Clone, Copy, PartialEq, Eq, PartialOrd, Ord)]
    pub struct MacAddress(pub [u8; 6]);
}
