//! Whether standard input and output were closed when the command began. Rust then opens /dev/null in their place, so that nothing read or written
//! there ever fails.

use std::io;
use std::sync::atomic::{AtomicBool, Ordering};

static CLOSED: [AtomicBool; 2] = [AtomicBool::new(false), AtomicBool::new(false)];

extern "C" {
    fn fcntl(descriptor: i32, command: i32, ...) -> i32;
}

/// The command that asks for a descriptor's flags, and fails where it is closed.
const F_GETFD: i32 = 1;

extern "C" fn look() {
    for (descriptor, closed) in CLOSED.iter().enumerate() {
        // SAFETY: the call changes nothing, and answers for every number.
        closed.store(unsafe { fcntl(descriptor as i32, F_GETFD) } == -1, Ordering::Relaxed);
    }
}

/// What stands in this section is called before Rust begins.
#[used]
#[link_section = ".init_array"]
static FIRST: extern "C" fn() = look;

fn open(descriptor: usize) -> io::Result<()> {
    match CLOSED[descriptor].load(Ordering::Relaxed) {
        true => Err(io::Error::other("it is closed")),
        false => Ok(()),
    }
}

/// Fails where standard input is closed.
pub fn open_input() -> io::Result<()> {
    open(0)
}

/// Fails where standard output is closed.
pub fn open_output() -> io::Result<()> {
    open(1)
}
