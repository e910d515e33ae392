//! The structs of the Rust interface, and those that the archive returns, lie in memory as those of
//! `include/tomkhadi.h` do.

use std::mem::{align_of, offset_of, size_of};

use common::interface::{Answer, Columns, Dispatcher, Head, Job, Peeked, Register, Turned};

use crate::judge::Judge;

/// `CShaped` of `crates/mirror`.
#[repr(C)]
struct HeadShaped {
    refusal: u32,
    head: Head,
}

/// `CAnswered` of `crates/mirror`.
#[repr(C)]
struct HeadAnswered {
    answer: Answer,
    head: Head,
}

unsafe extern "C" {
    /// What `tests/src/layout.c` reads from the header, in the order of `RUST`.
    static tomkhadi_layout: [usize; RUST.len()];
}

const RUST: [usize; 77] = [
    size_of::<Register>(),
    align_of::<Register>(),
    offset_of!(Register, refusal),
    offset_of!(Register, alone),
    offset_of!(Register, length),
    size_of::<Columns>(),
    align_of::<Columns>(),
    offset_of!(Columns, refusal),
    offset_of!(Columns, tried),
    offset_of!(Columns, marks),
    size_of::<Head>(),
    align_of::<Head>(),
    offset_of!(Head, phase),
    offset_of!(Head, alone),
    offset_of!(Head, length),
    offset_of!(Head, rows),
    offset_of!(Head, columns),
    offset_of!(Head, marks),
    offset_of!(Head, checks),
    offset_of!(Head, exponent),
    size_of::<Job>(),
    align_of::<Job>(),
    offset_of!(Job, head),
    offset_of!(Job, declared),
    offset_of!(Job, sums),
    offset_of!(Job, taps),
    offset_of!(Job, counts),
    offset_of!(Job, lengths),
    offset_of!(Job, places),
    offset_of!(Job, sizes),
    offset_of!(Job, discs),
    offset_of!(Job, quotients),
    offset_of!(Job, current),
    offset_of!(Job, symbols),
    offset_of!(Job, saved),
    size_of::<Answer>(),
    align_of::<Answer>(),
    offset_of!(Answer, refusal),
    offset_of!(Answer, unfinished),
    offset_of!(Answer, count),
    offset_of!(Answer, tried),
    offset_of!(Answer, marks),
    size_of::<Peeked>(),
    align_of::<Peeked>(),
    offset_of!(Peeked, refusal),
    offset_of!(Peeked, length),
    size_of::<HeadShaped>(),
    align_of::<HeadShaped>(),
    offset_of!(HeadShaped, refusal),
    offset_of!(HeadShaped, head),
    size_of::<HeadAnswered>(),
    align_of::<HeadAnswered>(),
    offset_of!(HeadAnswered, answer),
    offset_of!(HeadAnswered, head),
    size_of::<Dispatcher>(),
    align_of::<Dispatcher>(),
    offset_of!(Dispatcher, last),
    offset_of!(Dispatcher, states),
    offset_of!(Dispatcher, extents),
    offset_of!(Dispatcher, checks),
    offset_of!(Dispatcher, marks),
    offset_of!(Dispatcher, declared),
    offset_of!(Dispatcher, sums),
    offset_of!(Dispatcher, taps),
    offset_of!(Dispatcher, counts),
    offset_of!(Dispatcher, lengths),
    offset_of!(Dispatcher, places),
    offset_of!(Dispatcher, sizes),
    offset_of!(Dispatcher, discs),
    offset_of!(Dispatcher, quotients),
    offset_of!(Dispatcher, current),
    offset_of!(Dispatcher, symbols),
    offset_of!(Dispatcher, saved),
    size_of::<Turned>(),
    align_of::<Turned>(),
    offset_of!(Turned, job),
    offset_of!(Turned, answer),
];

pub fn run(judge: &mut Judge) {
    // SAFETY: a constant that nobody writes.
    let header = unsafe { tomkhadi_layout };
    judge.compare("the layout of the structs", &(), header, RUST);
}
