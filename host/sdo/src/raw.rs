//! The three calls as the archive exports them, on slices and numbers.

use formats::refusal::Refusal;

/// The outcome of a request or a tick; length and client are 0 unless it is 0.
#[repr(C)]
#[derive(Debug, Clone, Copy, PartialEq, Eq)]
pub struct Answer {
    pub outcome: u64,
    pub length: u64,
    pub client: u64,
}

/// The outcome of the deadline query; the time is 0 unless it is 254.
#[repr(C)]
#[derive(Debug, Clone, Copy, PartialEq, Eq)]
pub struct Deadline {
    pub outcome: u64,
    pub at: u64,
}

pub const ANSWERED: u64 = 0;
pub const DEADLINE: u64 = 254;
pub const NOTHING: u64 = 255;

mod archive {
    use super::{Answer, Deadline};

    // A slice is a pointer and a count in the archive's interface.
    extern "C" {
        pub fn sdo_handle_request(
            table: *mut u8,
            table_len: usize,
            area: *mut u8,
            area_len: usize,
            image: *mut u8,
            image_len: usize,
            answer: *mut u8,
            answer_len: usize,
            client: u64,
            clock: u64,
            request: *const u8,
            request_len: usize,
        ) -> Answer;
        pub fn sdo_tick(
            table: *mut u8,
            table_len: usize,
            area: *const u8,
            area_len: usize,
            image: *const u8,
            image_len: usize,
            answer: *mut u8,
            answer_len: usize,
            clock: u64,
        ) -> Answer;
        pub fn sdo_next_action_time(table: *const u8, table_len: usize) -> Deadline;
    }
}

/// What a call is lent beside the table, to be changed.
pub struct Lent<'a> {
    pub area: &'a mut [u8],
    pub image: &'a mut [u8],
    pub answer: &'a mut [u8],
}

pub fn handle_request(
    table: &mut [u8],
    lent: Lent,
    client: u64,
    clock: u64,
    request: &[u8],
) -> Answer {
    let Lent {
        area,
        image,
        answer,
    } = lent;
    // Each pointer and count come from one slice, and the mutable ones cannot
    // overlap; the archive asks no more.
    unsafe {
        archive::sdo_handle_request(
            table.as_mut_ptr(),
            table.len(),
            area.as_mut_ptr(),
            area.len(),
            image.as_mut_ptr(),
            image.len(),
            answer.as_mut_ptr(),
            answer.len(),
            client,
            clock,
            request.as_ptr(),
            request.len(),
        )
    }
}

pub fn tick(table: &mut [u8], area: &[u8], image: &[u8], answer: &mut [u8], clock: u64) -> Answer {
    // As above.
    unsafe {
        archive::sdo_tick(
            table.as_mut_ptr(),
            table.len(),
            area.as_ptr(),
            area.len(),
            image.as_ptr(),
            image.len(),
            answer.as_mut_ptr(),
            answer.len(),
            clock,
        )
    }
}

pub fn next_action_time(table: &[u8]) -> Deadline {
    // As above.
    unsafe { archive::sdo_next_action_time(table.as_ptr(), table.len()) }
}

/// The refusal of a number that the archive gave.
pub fn refusal(outcome: u64) -> Refusal {
    Refusal::from_number(outcome)
        .unwrap_or_else(|| panic!("the archive gave {outcome}, which is no outcome of this call"))
}
