//! Stands in for crates/powerlink-rs/src/hal.rs, which is not at hand: the
//! error type, with the cases that the files taken in name.

use core::array::TryFromSliceError;

#[derive(Debug, Clone, Copy, PartialEq, Eq)]
pub enum PowerlinkError {
    BufferTooShort,
    InvalidEnumValue,
    SdoInvalidCommandPayload,
    SdoSequenceError(&'static str),
    InternalError(&'static str),
    TypeMismatch,
    StorageError(&'static str),
    /// Matched in state.rs; the dictionary stand-in never gives it.
    #[allow(dead_code)]
    ValidationError(&'static str),
}

/// The Rust turns only slices of a fixed, checked length into arrays, so this
/// never runs. The repository's own choice of a case is not known here; a
/// panic would show that it matters.
impl From<TryFromSliceError> for PowerlinkError {
    fn from(error: TryFromSliceError) -> Self {
        panic!("a slice of the wrong length was turned into an array: {error}")
    }
}
