//! How much stack some work takes. x86-64 only, as the product is.

use std::arch::asm;

const BYTES: usize = 1 << 16;
const PAINT: u8 = 0xA5;

#[repr(align(16))]
struct Stack([u8; BYTES]);

/// The bytes of stack between the caller and the deepest byte that the work wrote, less those that
/// getting there takes.
pub fn used(mut work: impl FnMut()) -> usize {
    painted_over(&mut work).saturating_sub(painted_over(&mut || ()))
}

/// Runs the work on a painted stack of its own, twice, so that nothing is bound for the first time.
fn painted_over<F: FnMut()>(work: &mut F) -> usize {
    work();
    let mut stack = Box::new(Stack([PAINT; BYTES]));
    let top = stack.0.as_mut_ptr_range().end;
    // The stack grows down from its end; r12 keeps ours, since a callee must restore it.
    unsafe {
        asm!(
            "mov r12, rsp",
            "mov rsp, {top}",
            "call {run}",
            "mov rsp, r12",
            top = in(reg) top,
            run = in(reg) run::<F> as extern "C" fn(*mut F),
            in("rdi") work as *mut F,
            out("r12") _,
            clobber_abi("C"),
        );
    }
    BYTES - stack.0.iter().take_while(|&&byte| byte == PAINT).count()
}

extern "C" fn run<F: FnMut()>(work: *mut F) {
    // The work outlives the call: its caller waits for it.
    unsafe { (*work)() }
}
