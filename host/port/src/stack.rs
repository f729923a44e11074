//! The stack that a call takes.

use std::arch::asm;

/// Bytes of the stack that a measured call is given, and what it is painted with.
const STACK: usize = 1 << 20;
const PAINT: u8 = 0xa5;

/// How deep into a painted stack of its own this call writes.
pub fn stack_of<F: FnMut()>(mut call: F) -> usize {
    let mut stack = vec![PAINT; STACK];
    // SAFETY: the end of the buffer, rounded down to 16 bytes as the C interface asks.
    let top = unsafe { stack.as_mut_ptr().add(STACK) };
    let top = top.wrapping_sub(top as usize % 16);
    // SAFETY: `run` takes the call that its argument points to; r12 or x20 outlives any C function; the buffer is used by nothing else.
    #[cfg(target_arch = "x86_64")]
    unsafe {
        asm!(
            "mov r12, rsp",
            "mov rsp, {top}",
            "call {run}",
            "mov rsp, r12",
            top = in(reg) top,
            run = in(reg) run::<F> as extern "C" fn(*mut F),
            in("rdi") &raw mut call,
            out("r12") _,
            clobber_abi("C"),
        );
    }
    #[cfg(target_arch = "aarch64")]
    unsafe {
        asm!(
            "mov x20, sp",
            "mov sp, {top}",
            "blr {run}",
            "mov sp, x20",
            top = in(reg) top,
            run = in(reg) run::<F> as extern "C" fn(*mut F),
            in("x0") &raw mut call,
            out("x20") _,
            clobber_abi("C"),
        );
    }
    let untouched = stack.iter().take_while(|&&byte| byte == PAINT).count();
    top as usize - (stack.as_ptr() as usize + untouched)
}

extern "C" fn run<F: FnMut()>(call: *mut F) {
    // SAFETY: `stack_of` hands over its own closure.
    unsafe { (*call)() }
}
