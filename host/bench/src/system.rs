//! What std has no name for: the signals that end the program, and waiting for a
//! datagram to the millisecond.

use std::ffi::{c_int, c_short, c_ulong, c_void};
use std::net::UdpSocket;
use std::os::fd::AsRawFd;
use std::sync::atomic::{AtomicBool, Ordering};
use std::time::Duration;

const SIGINT: c_int = 2;
const SIGTERM: c_int = 15;
const POLLIN: c_short = 1;

static ENDED: AtomicBool = AtomicBool::new(false);

/// `struct pollfd` of poll(2).
#[repr(C)]
struct PollFd {
    fd: c_int,
    events: c_short,
    revents: c_short,
}

extern "C" {
    fn signal(number: c_int, handler: extern "C" fn(c_int)) -> *const c_void;
    fn poll(fds: *mut PollFd, count: c_ulong, timeout: c_int) -> c_int;
}

extern "C" fn end(_: c_int) {
    ENDED.store(true, Ordering::Relaxed);
}

/// From here on Ctrl-C and SIGTERM only set what `is_ended` tells.
pub fn end_on_signals() {
    for number in [SIGINT, SIGTERM] {
        // The handler does nothing but store to an atomic.
        unsafe { signal(number, end) };
    }
}

pub fn is_ended() -> bool {
    ENDED.load(Ordering::Relaxed)
}

/// Returns when a datagram is there, the time is over or a signal came. A read
/// timeout of the socket would be rounded up to the kernel's ticks.
pub fn wait(socket: &UdpSocket, most: Duration) {
    let mut fds = PollFd {
        fd: socket.as_raw_fd(),
        events: POLLIN,
        revents: 0,
    };
    let timeout = c_int::try_from(most.as_micros().div_ceil(1_000)).unwrap_or(c_int::MAX);
    // One descriptor, which the socket keeps open.
    unsafe { poll(&mut fds, 1, timeout) };
}
