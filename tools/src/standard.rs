//! Whether standard input, output and error were open when the program began. Rust's start-up opens
//! /dev/null in place of a closed one, so that writing would seem to succeed: this looks before it.

use std::sync::atomic::{AtomicBool, Ordering::Relaxed};

/// Of standard input, standard output and standard error, which have the descriptors 0 to 2.
static CLOSED: [AtomicBool; 3] = [const { AtomicBool::new(false) }; 3];

/// Asks for a descriptor's flags; fails where it is not open.
const F_GETFD: i32 = 1;

extern "C" {
    fn fcntl(descriptor: i32, command: i32, ...) -> i32;
}

/// The system calls the functions of this section before Rust's start-up.
#[used]
#[link_section = ".init_array"]
static BEFORE_START: extern "C" fn() = look;

extern "C" fn look() {
    for (descriptor, closed) in (0..).zip(&CLOSED) {
        // SAFETY: F_GETFD takes no third argument and changes nothing.
        closed.store(unsafe { fcntl(descriptor, F_GETFD) } < 0, Relaxed);
    }
}

pub fn input_was_closed() -> bool {
    CLOSED[0].load(Relaxed)
}

pub fn output_was_closed() -> bool {
    CLOSED[1].load(Relaxed)
}

pub fn error_was_closed() -> bool {
    CLOSED[2].load(Relaxed)
}
