//! The user's limit on the size of files (`ulimit -f`). A write beyond it is to fail, as one on a
//! full disk does, so that what was begun is taken away; but the system would end the program.

/// The system's numbers for this signal, and for passing it by.
const SIGXFSZ: i32 = 25;
const SIG_IGN: usize = 1;

extern "C" {
    fn signal(number: i32, handler: usize) -> usize;
}

/// Lets such writes fail from now on.
pub fn outlive() {
    // SAFETY: no code of ours is to be called for the signal, and nothing else depends on it.
    unsafe { signal(SIGXFSZ, SIG_IGN) };
}
