//! The calls that are timed, with what each reads and writes.

use common::interface::{Calls, Declared, Head, Job, Marks};

/// One call, with what it reads. The head is that of the job before the call.
#[derive(Clone)]
pub enum Call {
    Find {
        p: u32,
        lengths: Vec<u16>,
        symbols: Vec<u16>,
    },
    Search {
        columns: usize,
        taps: Vec<u16>,
    },
    Encode,
    Locate {
        head: Head,
        declared: Box<Declared>,
        frame: Vec<u16>,
    },
    Repair {
        head: Head,
        frame: Vec<u16>,
    },
}

/// What a call writes: the job, and the taps or the frame.
#[derive(Clone, Debug, PartialEq)]
pub struct Lent {
    pub job: Job,
    pub buffer: Vec<u16>,
}

#[derive(Clone)]
pub struct Work {
    pub call: Call,
    pub lent: Lent,
}

/// What a call answers.
#[derive(Clone, Copy, Debug, PartialEq)]
pub struct Outcome {
    pub refusal: u32,
    count: u64,
    marks: Marks,
}

impl Work {
    pub fn new(call: Call, job: Job, buffer: Vec<u16>) -> Work {
        let lent = Lent { job, buffer };
        Work { call, lent }
    }

    /// Locate and repair alter the head, so it is set before each call; repair mends the frame, so that
    /// is copied.
    pub fn set(&mut self) {
        match &self.call {
            Call::Locate { head, .. } => self.lent.job.head = *head,
            Call::Repair { head, frame } => {
                self.lent.job.head = *head;
                self.lent.buffer.copy_from_slice(frame);
            }
            Call::Find { .. } | Call::Search { .. } | Call::Encode => {}
        }
    }

    /// Sets what must be set, which its time includes, and makes the call.
    pub fn run(&mut self, calls: &dyn Calls) -> Outcome {
        self.set();
        let Lent { job, buffer } = &mut self.lent;
        let (refusal, count, marks) = match &self.call {
            Call::Find {
                p,
                lengths,
                symbols,
            } => {
                let register = calls.find(*p, lengths, symbols, buffer);
                (register.refusal, register.length, [0; 4])
            }
            Call::Search { columns, taps } => {
                let found = calls.search(*columns, taps);
                (found.refusal, found.tried, found.marks)
            }
            Call::Encode => (calls.encode(job, buffer), 0, [0; 4]),
            Call::Locate {
                declared, frame, ..
            } => {
                let answer = calls.locate(job, declared, frame);
                (answer.refusal, answer.count, answer.marks)
            }
            Call::Repair { .. } => {
                let answer = calls.repair(job, buffer);
                (answer.refusal, answer.count, answer.marks)
            }
        };
        Outcome {
            refusal,
            count,
            marks,
        }
    }
}
