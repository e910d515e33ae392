//! The C interface of `include/tomkhadi.h` in Rust: its structs, and its calls as a trait, so that
//! the library, the plain implementation and the independent one can stand in for each other.
//! `tests/src/trials/layout.rs` compares the structs with those of the header.

pub const EMPTY: u32 = 0;
pub const SHAPED: u32 = 1;
pub const LOCATED: u32 = 2;
pub const UNFINISHED: u32 = 3;

/// Column i is bit i mod 64 of word i / 64.
pub type Marks = [u64; 4];

/// The marks of each of eight rows: bit b of word 4·h + w declares column 64·w + b of the row at
/// place h.
pub type Declared = [u64; 32];

pub const NOTHING: Declared = [0; 32];

#[repr(C)]
#[derive(Clone, Copy, Debug, PartialEq, Eq)]
pub struct Register {
    pub refusal: u32,
    pub alone: u32,
    pub length: u64,
}

#[repr(C)]
#[derive(Clone, Copy, Debug, PartialEq, Eq)]
pub struct Columns {
    pub refusal: u32,
    pub tried: u64,
    pub marks: Marks,
}

#[repr(C)]
#[derive(Clone, Copy, Debug, PartialEq, Eq)]
pub struct Head {
    pub phase: u32,
    pub alone: u32,
    pub length: u64,
    pub rows: u64,
    pub columns: u64,
    pub marks: Marks,
    pub checks: [u16; 8],
    pub exponent: u32,
}

#[repr(C)]
#[derive(Clone, Copy, Debug, PartialEq, Eq)]
pub struct Job {
    pub head: Head,
    pub declared: Declared,
    pub sums: [u16; 512],
    pub taps: [u16; 65],
    pub counts: [u16; 5],
    pub lengths: [u16; 8],
    pub places: [u16; 8],
    pub sizes: [u16; 8],
    pub discs: [u16; 8],
    pub quotients: [u16; 8],
    pub current: [u16; 144],
    pub symbols: [u16; 1152],
    pub saved: [u16; 1152],
}

#[repr(C)]
#[derive(Clone, Copy, Debug, PartialEq, Eq)]
pub struct Answer {
    pub refusal: u32,
    /// 1 where a start or a step leaves the locate unfinished.
    pub unfinished: u32,
    pub count: u64,
    pub tried: u64,
    pub marks: Marks,
}

#[repr(C)]
#[derive(Clone, Copy, Debug, PartialEq, Eq)]
pub struct Peeked {
    pub refusal: u32,
    pub length: u64,
}

/// Eight jobs, each array with a part for each, and the number of the one served last.
#[repr(C)]
#[derive(Clone, Debug, PartialEq, Eq)]
pub struct Dispatcher {
    pub last: u64,
    /// Phase, alone mark and exponent.
    pub states: [[u32; 3]; 8],
    /// Rows, columns and length.
    pub extents: [[u64; 3]; 8],
    pub checks: [[u16; 8]; 8],
    pub marks: [Marks; 8],
    pub declared: [Declared; 8],
    pub sums: [[u16; 512]; 8],
    pub taps: [[u16; 65]; 8],
    pub counts: [[u16; 5]; 8],
    pub lengths: [[u16; 8]; 8],
    pub places: [[u16; 8]; 8],
    pub sizes: [[u16; 8]; 8],
    pub discs: [[u16; 8]; 8],
    pub quotients: [[u16; 8]; 8],
    pub current: [[u16; 144]; 8],
    pub symbols: [[u16; 1152]; 8],
    pub saved: [[u16; 1152]; 8],
}

#[repr(C)]
#[derive(Clone, Copy, Debug, PartialEq, Eq)]
pub struct Turned {
    /// The number of the job that was served; 8 where none is unfinished.
    pub job: u64,
    pub answer: Answer,
}

impl Peeked {
    pub fn refused(refusal: u32) -> Peeked {
        Peeked { refusal, length: 0 }
    }
}

impl Register {
    pub fn refused(refusal: u32) -> Register {
        Register {
            refusal,
            length: 0,
            alone: 0,
        }
    }
}

impl Columns {
    pub fn refused(refusal: u32) -> Columns {
        Columns {
            refusal,
            tried: 0,
            marks: [0; 4],
        }
    }
}

impl Head {
    pub const EMPTY: Head = Head {
        phase: EMPTY,
        alone: 0,
        length: 0,
        rows: 0,
        columns: 0,
        marks: [0; 4],
        checks: [0; 8],
        exponent: 0,
    };

    /// The head of the shape given, which is not refused.
    pub fn shaped(columns: usize, checks: &[u16], exponent: u32) -> Head {
        let mut head = Head {
            phase: SHAPED,
            rows: checks.len() as u64,
            columns: columns as u64,
            exponent,
            ..Head::EMPTY
        };
        head.checks[..checks.len()].copy_from_slice(checks);
        head
    }

    /// Makes a shaped head located, and answers what locate answers then.
    pub fn located(&mut self, length: usize, tried: usize, marks: Marks) -> Answer {
        self.phase = LOCATED;
        self.alone = 1;
        self.length = length as u64;
        self.marks = marks;
        Answer {
            refusal: 0,
            unfinished: 0,
            count: self.length,
            tried: tried as u64,
            marks,
        }
    }

    /// The shaped head of the same shape.
    pub fn reshaped(&self) -> Head {
        Head {
            phase: SHAPED,
            rows: self.rows,
            columns: self.columns,
            checks: self.checks,
            exponent: self.exponent,
            ..Head::EMPTY
        }
    }
}

impl Job {
    pub const EMPTY: Job = Job {
        head: Head::EMPTY,
        declared: NOTHING,
        sums: [0; 512],
        taps: [0; 65],
        counts: [0; 5],
        lengths: [0; 8],
        places: [0; 8],
        sizes: [0; 8],
        discs: [0; 8],
        quotients: [0; 8],
        current: [0; 144],
        symbols: [0; 1152],
        saved: [0; 1152],
    };
}

impl Dispatcher {
    pub const EMPTY: Dispatcher = Dispatcher {
        last: 7,
        states: [[0; 3]; 8],
        extents: [[0; 3]; 8],
        checks: [[0; 8]; 8],
        marks: [[0; 4]; 8],
        declared: [NOTHING; 8],
        sums: [[0; 512]; 8],
        taps: [[0; 65]; 8],
        counts: [[0; 5]; 8],
        lengths: [[0; 8]; 8],
        places: [[0; 8]; 8],
        sizes: [[0; 8]; 8],
        discs: [[0; 8]; 8],
        quotients: [[0; 8]; 8],
        current: [[0; 144]; 8],
        symbols: [[0; 1152]; 8],
        saved: [[0; 1152]; 8],
    };

    /// Part k of each array.
    pub fn job(&self, k: usize) -> Job {
        let [phase, alone, exponent] = self.states[k];
        let [rows, columns, length] = self.extents[k];
        Job {
            head: Head {
                phase,
                alone,
                length,
                rows,
                columns,
                marks: self.marks[k],
                checks: self.checks[k],
                exponent,
            },
            declared: self.declared[k],
            sums: self.sums[k],
            taps: self.taps[k],
            counts: self.counts[k],
            lengths: self.lengths[k],
            places: self.places[k],
            sizes: self.sizes[k],
            discs: self.discs[k],
            quotients: self.quotients[k],
            current: self.current[k],
            symbols: self.symbols[k],
            saved: self.saved[k],
        }
    }

    pub fn set_job(&mut self, k: usize, job: &Job) {
        let head = &job.head;
        self.states[k] = [head.phase, head.alone, head.exponent];
        self.extents[k] = [head.rows, head.columns, head.length];
        self.checks[k] = head.checks;
        self.marks[k] = head.marks;
        self.declared[k] = job.declared;
        self.sums[k] = job.sums;
        self.taps[k] = job.taps;
        self.counts[k] = job.counts;
        self.lengths[k] = job.lengths;
        self.places[k] = job.places;
        self.sizes[k] = job.sizes;
        self.discs[k] = job.discs;
        self.quotients[k] = job.quotients;
        self.current[k] = job.current;
        self.symbols[k] = job.symbols;
        self.saved[k] = job.saved;
    }
}

impl Answer {
    pub fn refused(refusal: u32) -> Answer {
        Answer {
            refusal,
            unfinished: 0,
            count: 0,
            tried: 0,
            marks: [0; 4],
        }
    }
}

/// The calls of the header, with a slice for each pointer and count.
pub trait Calls {
    fn find(&self, p: u32, lengths: &[u16], symbols: &[u16], taps: &mut [u16]) -> Register;
    fn search(&self, columns: usize, taps: &[u16]) -> Columns;
    fn empty(&self, job: &mut Job);
    fn shape(&self, job: &mut Job, columns: usize, checks: &[u16], exponent: u32) -> u32;
    fn encode(&self, job: &Job, frame: &mut [u16]) -> u32;
    fn locate(&self, job: &mut Job, declared: &Declared, frame: &[u16]) -> Answer;
    fn repair(&self, job: &mut Job, frame: &mut [u16]) -> Answer;

    /// The calls that locate in slices, where there are such.
    fn slices(&self) -> Option<&dyn Slices> {
        None
    }

    /// The calls on eight jobs, where there are such.
    fn eight_jobs(&self) -> Option<&dyn EightJobs> {
        None
    }
}

pub trait Slices {
    fn start(&self, job: &mut Job, declared: &Declared, frame: &[u16]) -> Answer;
    fn step(&self, job: &mut Job) -> Answer;
    fn peek(&self, job: &Job) -> Peeked;
}

/// The calls on job k of a dispatcher, and the turn.
pub trait EightJobs {
    fn empty(&self, d: &mut Dispatcher);
    fn shape(&self, d: &mut Dispatcher, k: usize, columns: usize, checks: &[u16], exp: u32) -> u32;
    fn encode(&self, d: &Dispatcher, k: usize, frame: &mut [u16]) -> u32;
    fn locate(&self, d: &mut Dispatcher, k: usize, declared: &Declared, frame: &[u16]) -> Answer;
    fn repair(&self, d: &mut Dispatcher, k: usize, frame: &mut [u16]) -> Answer;
    fn start(&self, d: &mut Dispatcher, k: usize, declared: &Declared, frame: &[u16]) -> Answer;
    fn step(&self, d: &mut Dispatcher, k: usize) -> Answer;
    fn peek(&self, d: &Dispatcher, k: usize) -> Peeked;
    fn turn(&self, d: &mut Dispatcher) -> Turned;
}

/// The proved library, in the archive that `rt lib` writes in `crates/capi`.
#[cfg(library)]
pub struct Library;

#[cfg(library)]
mod library {
    use super::{
        Answer, Calls, Columns, Declared, Dispatcher, EightJobs, Job, Library, Peeked, Register,
        Slices, Turned,
    };

    unsafe extern "C" {
        fn tomkhadi_find(
            p: u32,
            lengths: *const u16,
            count: usize,
            symbols: *const u16,
            symbol_count: usize,
            taps: *mut u16,
            tap_count: usize,
        ) -> Register;
        fn tomkhadi_search(columns: usize, taps: *const u16, tap_count: usize) -> Columns;
        // Those of `header.c`.
        fn header_empty(job: *mut Job);
        fn header_shape(
            job: *mut Job,
            columns: usize,
            checks: *const u16,
            rows: usize,
            exponent: u32,
        ) -> u32;
        fn header_encode(job: *const Job, frame: *mut u16, size: usize) -> u32;
        fn header_locate(
            job: *mut Job,
            declared: *const Declared,
            frame: *const u16,
            size: usize,
        ) -> Answer;
        fn header_repair(job: *mut Job, frame: *mut u16, size: usize) -> Answer;
        fn header_start(
            job: *mut Job,
            declared: *const Declared,
            frame: *const u16,
            size: usize,
        ) -> Answer;
        fn header_step(job: *mut Job) -> Answer;
        fn header_peek(job: *const Job) -> Peeked;
        fn header_dispatcher_empty(d: *mut Dispatcher);
        fn header_dispatcher_shape(
            d: *mut Dispatcher,
            job: usize,
            columns: usize,
            checks: *const u16,
            rows: usize,
            exponent: u32,
        ) -> u32;
        fn header_dispatcher_encode(
            d: *const Dispatcher,
            job: usize,
            frame: *mut u16,
            size: usize,
        ) -> u32;
        fn header_dispatcher_locate(
            d: *mut Dispatcher,
            job: usize,
            declared: *const Declared,
            frame: *const u16,
            size: usize,
        ) -> Answer;
        fn header_dispatcher_repair(
            d: *mut Dispatcher,
            job: usize,
            frame: *mut u16,
            size: usize,
        ) -> Answer;
        fn header_dispatcher_start(
            d: *mut Dispatcher,
            job: usize,
            declared: *const Declared,
            frame: *const u16,
            size: usize,
        ) -> Answer;
        fn header_dispatcher_step(d: *mut Dispatcher, job: usize) -> Answer;
        fn header_dispatcher_peek(d: *const Dispatcher, job: usize) -> Peeked;
        fn header_dispatcher_turn(d: *mut Dispatcher) -> Turned;
    }

    // SAFETY, of every call: a pointer is that of a job or a dispatcher, of 32 words, or of a slice
    // and followed by its length; what is lent mutably overlaps nothing else, and the header's
    // functions keep nothing of it.
    impl Calls for Library {
        fn find(&self, p: u32, lengths: &[u16], symbols: &[u16], taps: &mut [u16]) -> Register {
            unsafe {
                tomkhadi_find(
                    p,
                    lengths.as_ptr(),
                    lengths.len(),
                    symbols.as_ptr(),
                    symbols.len(),
                    taps.as_mut_ptr(),
                    taps.len(),
                )
            }
        }

        fn search(&self, columns: usize, taps: &[u16]) -> Columns {
            unsafe { tomkhadi_search(columns, taps.as_ptr(), taps.len()) }
        }

        fn empty(&self, job: &mut Job) {
            unsafe { header_empty(job) }
        }

        fn shape(&self, job: &mut Job, columns: usize, checks: &[u16], exponent: u32) -> u32 {
            unsafe { header_shape(job, columns, checks.as_ptr(), checks.len(), exponent) }
        }

        fn encode(&self, job: &Job, frame: &mut [u16]) -> u32 {
            unsafe { header_encode(job, frame.as_mut_ptr(), frame.len()) }
        }

        fn locate(&self, job: &mut Job, declared: &Declared, frame: &[u16]) -> Answer {
            unsafe { header_locate(job, declared, frame.as_ptr(), frame.len()) }
        }

        fn repair(&self, job: &mut Job, frame: &mut [u16]) -> Answer {
            unsafe { header_repair(job, frame.as_mut_ptr(), frame.len()) }
        }

        fn slices(&self) -> Option<&dyn Slices> {
            Some(self)
        }

        fn eight_jobs(&self) -> Option<&dyn EightJobs> {
            Some(self)
        }
    }

    impl Slices for Library {
        fn start(&self, job: &mut Job, declared: &Declared, frame: &[u16]) -> Answer {
            unsafe { header_start(job, declared, frame.as_ptr(), frame.len()) }
        }

        fn step(&self, job: &mut Job) -> Answer {
            unsafe { header_step(job) }
        }

        fn peek(&self, job: &Job) -> Peeked {
            unsafe { header_peek(job) }
        }
    }

    impl EightJobs for Library {
        fn empty(&self, d: &mut Dispatcher) {
            unsafe { header_dispatcher_empty(d) }
        }

        fn shape(
            &self,
            d: &mut Dispatcher,
            k: usize,
            columns: usize,
            checks: &[u16],
            exponent: u32,
        ) -> u32 {
            let (given, rows) = (checks.as_ptr(), checks.len());
            unsafe { header_dispatcher_shape(d, k, columns, given, rows, exponent) }
        }

        fn encode(&self, d: &Dispatcher, k: usize, frame: &mut [u16]) -> u32 {
            unsafe { header_dispatcher_encode(d, k, frame.as_mut_ptr(), frame.len()) }
        }

        fn locate(
            &self,
            d: &mut Dispatcher,
            k: usize,
            declared: &Declared,
            frame: &[u16],
        ) -> Answer {
            unsafe { header_dispatcher_locate(d, k, declared, frame.as_ptr(), frame.len()) }
        }

        fn repair(&self, d: &mut Dispatcher, k: usize, frame: &mut [u16]) -> Answer {
            unsafe { header_dispatcher_repair(d, k, frame.as_mut_ptr(), frame.len()) }
        }

        fn start(
            &self,
            d: &mut Dispatcher,
            k: usize,
            declared: &Declared,
            frame: &[u16],
        ) -> Answer {
            unsafe { header_dispatcher_start(d, k, declared, frame.as_ptr(), frame.len()) }
        }

        fn step(&self, d: &mut Dispatcher, k: usize) -> Answer {
            unsafe { header_dispatcher_step(d, k) }
        }

        fn peek(&self, d: &Dispatcher, k: usize) -> Peeked {
            unsafe { header_dispatcher_peek(d, k) }
        }

        fn turn(&self, d: &mut Dispatcher) -> Turned {
            unsafe { header_dispatcher_turn(d) }
        }
    }
}
