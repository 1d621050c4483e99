//! How deep a call goes: it runs on a stack of its own that was filled with a pattern, and what is left of the
//! pattern is counted.

use std::arch::asm;
use std::ffi::c_void;

const ROOM: usize = 1 << 18;
const PATTERN: u8 = 0xA5;

extern "C" fn call<F: FnMut()>(f: *mut c_void) {
    unsafe { (*f.cast::<F>())() }
}

fn used<F: FnMut()>(mut f: F) -> usize {
    let mut stack = vec![PATTERN; ROOM];
    let top = (stack.as_mut_ptr() as usize + ROOM) & !15;
    let entry = call::<F> as extern "C" fn(*mut c_void);
    let argument = (&raw mut f).cast::<c_void>();
    #[cfg(target_arch = "aarch64")]
    unsafe {
        asm!("mov x20, sp", "mov sp, {top}", "blr {entry}", "mov sp, x20",
            top = in(reg) top, entry = in(reg) entry, in("x0") argument, out("x20") _, clobber_abi("C"));
    }
    #[cfg(target_arch = "x86_64")]
    unsafe {
        asm!("mov r12, rsp", "mov rsp, {top}", "call {entry}", "mov rsp, r12",
            top = in(reg) top, entry = in(reg) entry, in("rdi") argument, out("r12") _, clobber_abi("C"));
    }
    let untouched = stack.iter().take_while(|&&byte| byte == PATTERN).count();
    top - (stack.as_ptr() as usize + untouched)
}

/// Bytes of stack that `f` uses, less those of calling nothing.
pub fn deepest(f: impl FnMut()) -> usize {
    used(f) - used(|| ())
}
