//! How far framing goes into a stack. No thread can be started on a stack as small as framing needs, so it is run on
//! memory of our own, and what it has written there is looked at afterwards.

use std::arch::asm;
use std::mem::MaybeUninit;

use crate::case::Case;
use crate::loafcanyon::{loafcanyon_frame, Answer};

/// Far more than it takes.
const SIZE: usize = 64 * 1024;

/// Where the stack starts. Above it stands what the caller hands over.
const TOP: usize = SIZE - 64;

#[repr(align(64))]
struct Stack([u8; SIZE]);

/// The bytes of stack that framing takes, its return address and what it calls included.
pub fn framing(case: &Case) -> usize {
    // A byte that is written may be the one that was there, so it is run with two.
    [0x5A, 0xA5].into_iter().map(|fill| deep(case, fill)).max().expect("there are two")
}

fn deep(case: &Case, fill: u8) -> usize {
    let mut room = vec![0; case.w * case.h];
    let mut stack = Box::new(Stack([fill; SIZE]));
    stack.0[TOP..TOP + 8].copy_from_slice(&room.len().to_ne_bytes());
    let mut told = MaybeUninit::<Answer>::uninit();
    // SAFETY: the arguments are those of the header, the last on the stack, which is aligned as a call asks for; the
    // call keeps r12, so that the stack of before comes back.
    let told = unsafe {
        asm!(
            "xchg rsp, r12",
            "call {frame}",
            "mov rsp, r12",
            frame = sym loafcanyon_frame,
            inout("r12") stack.0.as_mut_ptr().add(TOP) => _,
            in("rdi") told.as_mut_ptr(),
            in("rsi") case.w,
            in("rdx") case.h,
            in("rcx") case.px.as_ptr(),
            in("r8") case.px.len(),
            in("r9") room.as_mut_ptr(),
            clobber_abi("C"),
        );
        told.assume_init()
    };
    assert_eq!(told.number, 0, "the case is not refused");
    TOP - stack.0.iter().position(|&byte| byte != fill).expect("the return address was written")
}
