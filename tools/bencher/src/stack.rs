//! How much stack a call uses, to the byte.

use std::arch::asm;

const PAINT: u64 = 0x5ca1_ab1e_0dd5_eed5;

/// Runs `f` on a painted stack of 4 MiB, and gives the bytes from its top to the lowest that was
/// written.
pub fn used(mut f: impl FnMut()) -> usize {
    extern "C" fn run(f: *mut &mut dyn FnMut()) {
        // Safety: this is the pointer that was given below.
        unsafe { (*f)() }
    }
    let mut stack = vec![PAINT; 1 << 19];
    let range = stack.as_mut_ptr_range();
    let top = range.end as usize & !15;
    let mut f: &mut dyn FnMut() = &mut f;
    // Safety: `run` gets an aligned stack of its own and its argument. r12 keeps the stack pointer,
    // since a function of this convention restores it.
    unsafe {
        asm!(
            "xchg rsp, r12",
            "call {run}",
            "mov rsp, r12",
            run = sym run,
            inout("r12") top => _,
            in("rdi") &raw mut f,
            clobber_abi("C"),
        );
    }
    let untouched = stack.iter().take_while(|&&word| word == PAINT).count();
    top - (range.start as usize + 8 * untouched)
}
