//! The abort codes of DS 301 that the server sends, in words.

use std::fmt;

#[derive(Debug, Clone, Copy, PartialEq, Eq)]
pub struct AbortCode(pub u32);

impl AbortCode {
    pub const TIMED_OUT: AbortCode = AbortCode(0x0504_0000);
    pub const UNKNOWN_COMMAND: AbortCode = AbortCode(0x0504_0001);
    pub const WRONG_SEQUENCE: AbortCode = AbortCode(0x0504_0003);
    pub const OUT_OF_MEMORY: AbortCode = AbortCode(0x0504_0005);
    pub const READ_ONLY: AbortCode = AbortCode(0x0601_0002);
    pub const NO_OBJECT: AbortCode = AbortCode(0x0602_0000);
    pub const TOO_LONG: AbortCode = AbortCode(0x0607_0010);
    pub const TOO_SHORT: AbortCode = AbortCode(0x0607_0013);
    pub const NO_SUB_INDEX: AbortCode = AbortCode(0x0609_0011);
    pub const GENERAL: AbortCode = AbortCode(0x0800_0000);

    pub fn words(self) -> &'static str {
        match self {
            AbortCode::TIMED_OUT => "the transfer timed out",
            AbortCode::UNKNOWN_COMMAND => "the command is not valid or not known",
            AbortCode::WRONG_SEQUENCE => "the command does not fit the transfer that runs",
            AbortCode::OUT_OF_MEMORY => "the data is longer than the server can hold",
            AbortCode::READ_ONLY => "the object is read-only",
            AbortCode::NO_OBJECT => "the object does not exist",
            AbortCode::TOO_LONG => "the data's length does not fit the object",
            AbortCode::TOO_SHORT => "the data is too short for the object",
            AbortCode::NO_SUB_INDEX => "the sub-index does not exist",
            AbortCode::GENERAL => "another transaction is running",
            _ => "a code that this server does not send",
        }
    }

    /// Whether the transfer can succeed if it is begun again: the code speaks
    /// of the transfer and not of the object.
    pub fn is_passing(self) -> bool {
        matches!(
            self,
            AbortCode::TIMED_OUT | AbortCode::WRONG_SEQUENCE | AbortCode::GENERAL
        )
    }
}

impl fmt::Display for AbortCode {
    fn fmt(&self, f: &mut fmt::Formatter) -> fmt::Result {
        write!(f, "{:08X}: {}", self.0, self.words())
    }
}
