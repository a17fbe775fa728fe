//! Stands in for crates/powerlink-rs/src/types.rs, which is not at hand. The
//! derived order of `SdoClientInfo` (server.rs) leans on the order of these:
//! by the bytes in wire order, the first one first.

#[derive(Debug, Clone, Copy, PartialEq, Eq, PartialOrd, Ord)]
pub struct NodeId(pub u8);

#[derive(Debug, Clone, Copy, PartialEq, Eq, PartialOrd, Ord)]
pub struct IpAddress(pub [u8; 4]);
