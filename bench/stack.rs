//! How far down the stack a run goes: it is made on a stack of its own, which was painted before.

use std::arch::asm;

const PAINT: u8 = 0xa5;
const SIZE: usize = 1 << 20;

extern "C" fn enter(run: *mut &mut dyn FnMut()) {
    unsafe { (*run)() }
}

/// The bytes between the top of the stack and the lowest one that was written.
pub fn depth(run: &mut dyn FnMut()) -> usize {
    let mut stack = vec![PAINT; SIZE];
    let top = (stack.as_mut_ptr() as usize + SIZE) & !15;
    let mut run = run;
    unsafe {
        asm!(
            "xchg rsp, r12",
            "call {enter}",
            "mov rsp, r12",
            enter = in(reg) enter as extern "C" fn(*mut &mut dyn FnMut()),
            inout("r12") top => _,
            in("rdi") &mut run,
            clobber_abi("C"),
        );
    }
    let untouched = stack.iter().position(|&byte| byte != PAINT).unwrap_or(SIZE);
    top - (stack.as_ptr() as usize + untouched)
}
