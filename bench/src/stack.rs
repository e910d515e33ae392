//! The stack that a call of the library uses, on x86-64: the call runs on an area that was painted, and
//! what it has written over is counted, from its return address down. Nothing of this program is in it,
//! since the call is made from assembly, with the arguments that its prototype in C has.

use std::arch::asm;

use crate::calls::{Call, Lent, Work};

unsafe extern "C" {
    fn tomkhadi_find();
    fn tomkhadi_search();
    // Those of `tests/common/header.c`: the header's inline functions use the stack too.
    fn header_encode();
    fn header_locate();
    fn header_repair();
}

type Function = unsafe extern "C" fn();

/// The area has lines of 16 bytes, to which C aligns the stack at a call.
const LINES: usize = 1 << 14;
const PAINT: u128 = 0x9e37_79b9_7f4a_7c15_f39c_c060_5ced_c834;

/// The line above the return address, which has the seventh argument.
const TOP: usize = LINES - 1;

/// The most bytes that one of the calls uses, in steps of 16.
pub fn most_used(works: &mut [Work]) -> usize {
    let mut area = vec![PAINT; LINES];
    let used = works.iter_mut().map(|work| used(&mut area, work));
    used.max().unwrap_or(0)
}

/// The bytes that one call uses. The area is painted before and after.
fn used(area: &mut [u128], work: &mut Work) -> usize {
    work.set();
    let mut answer = [u64::MAX; 8];
    let (function, arguments) = in_c(work, &mut answer);
    // SAFETY: the arguments are those of the function's prototype, as in `Library`, and point to what is lent for
    // the call. The area is far larger than what a call uses, which is looked at afterwards.
    let returned = unsafe { call_on(area, function, arguments) };
    let in_memory = returned == answer.as_ptr() as usize;
    let refusal = if in_memory {
        answer[0] as u32
    } else {
        returned as u32
    };
    assert_eq!(refusal, 0, "the call whose stack is measured");
    let clean = area.iter().take_while(|&&line| line == PAINT).count();
    assert!(clean > 0, "the call needs more stack than there is");
    area[clean..].fill(PAINT);
    16 * (TOP - clean)
}

/// The function that C calls, and its arguments, all of which are words. The place for an answer that is
/// returned in memory is the first.
fn in_c(work: &mut Work, answer: &mut [u64; 8]) -> (Function, [usize; 7]) {
    let Lent { job, buffer } = &mut work.lent;
    let (answer, job) = (answer.as_mut_ptr() as usize, &raw mut *job as usize);
    let (lent, size) = (buffer.as_mut_ptr() as usize, buffer.len());
    let list = |list: &[u16]| (list.as_ptr() as usize, list.len());
    match &work.call {
        Call::Find {
            p,
            lengths,
            symbols,
        } => {
            let ((lengths, count), (symbols, total)) = (list(lengths), list(symbols));
            let p = *p as usize;
            (
                tomkhadi_find,
                [p, lengths, count, symbols, total, lent, size],
            )
        }
        Call::Search { columns, taps } => {
            let (taps, count) = list(taps);
            (tomkhadi_search, [answer, *columns, taps, count, 0, 0, 0])
        }
        Call::Encode => (header_encode, [job, lent, size, 0, 0, 0, 0]),
        Call::Locate {
            declared, frame, ..
        } => {
            let (frame, size) = list(frame);
            let declared = declared.as_ptr() as usize;
            (header_locate, [answer, job, declared, frame, size, 0, 0])
        }
        Call::Repair { .. } => (header_repair, [answer, job, lent, size, 0, 0, 0]),
    }
}

/// Calls the function with the area as its stack, and answers what it returns.
///
/// # Safety
///
/// The function has at most seven arguments, and they are right for it; the area is large enough.
unsafe fn call_on(area: &mut [u128], function: Function, arguments: [usize; 7]) -> usize {
    let [a, b, c, d, e, f, seventh] = arguments;
    area[TOP] = seventh as u128;
    let returned;
    // SAFETY: the function keeps r12, which holds the stack pointer meanwhile, and all else that it must keep.
    unsafe {
        asm!(
            "xchg rsp, r12",
            "call {function}",
            "mov rsp, r12",
            function = in(reg) function,
            inout("r12") area.as_mut_ptr().add(TOP) => _,
            in("rdi") a,
            in("rsi") b,
            in("rdx") c,
            in("rcx") d,
            in("r8") e,
            in("r9") f,
            out("rax") returned,
            clobber_abi("C"),
        );
    }
    returned
}
