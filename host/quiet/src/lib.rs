//! Programs that end without a word when whoever reads their output has had enough, as in `./show | head`.

const SIGPIPE: i32 = 13;
const DEFAULT: usize = 0;

extern "C" {
    fn signal(number: i32, handler: usize) -> usize;
}

/// To be called first in `main`. Rust ignores the signal of a closed pipe and panics on the next line it prints; this puts
/// back what the system does, which is to end the program.
pub fn end_with_the_reader() {
    // SAFETY: C's `signal` with a signal that exists and the default action, before there is any other thread.
    unsafe {
        signal(SIGPIPE, DEFAULT);
    }
}
