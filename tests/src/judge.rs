//! Makes each call on the implementation under test and on the independent one, and compares all
//! that the two answer and leave: the result, the job, and the lent buffers with what lies around. A
//! refused call is held to what refusals leave besides, whatever the independent one does.

use std::collections::BTreeMap;
use std::fmt::Debug;

use common::interface::{
    Answer, Calls, Columns, Declared, EMPTY, EightJobs, Head, Job, LOCATED, NOTHING, Register,
    Slices,
};

use crate::independent::{Independent, shape_of};

/// The answers that the inputs tried must bring about, each at least once.
const ANSWERS: [(&str, &[u32]); 17] = [
    ("find", &[0, 1, 2, 3, 4, 8]),
    ("search", &[0, 4, 5]),
    ("shape", &[0, 2, 5, 6, 32]),
    ("encode", &[0, 4, 7, 21, 34]),
    ("locate", &[0, 4, 7, 21, 24, 25, 26, 31]),
    ("repair", &[0, 4, 7, 21, 22, 23, 26]),
    ("start", &[0, 4, 7, 21, 31]),
    ("step", &[0, 21, 24, 25, 26, 33]),
    ("peek", &[0, 21, 33]),
    ("jobs_shape", &[0, 2, 5, 6, 32, 33]),
    ("jobs_encode", &[0, 4, 7, 21, 33, 34]),
    ("jobs_locate", &[0, 4, 7, 21, 24, 25, 26, 31, 33]),
    ("jobs_repair", &[0, 4, 7, 21, 22, 23, 26, 33]),
    ("jobs_start", &[0, 4, 7, 21, 31, 33]),
    ("jobs_step", &[0, 21, 24, 25, 26, 33]),
    ("jobs_peek", &[0, 21, 33]),
    ("jobs_turn", &[0, 21, 24, 25, 26, 33]),
];

/// How often things came that must come: each by its name.
pub struct Tally(BTreeMap<&'static str, u64>);

impl Tally {
    pub fn of(names: &[&'static str]) -> Tally {
        Tally(names.iter().map(|&name| (name, 0)).collect())
    }

    pub fn count(&mut self, name: &str, came: bool) {
        *self.0.get_mut(name).expect("a name of the tally") += u64::from(came);
    }

    /// Prints the counts, none of which may be 0.
    pub fn finish(self, judge: &mut Judge) {
        for (name, count) in self.0 {
            println!("{name:>60}: {count}");
            judge.expect("what never came", &name, count > 0);
        }
    }
}

pub struct Judge<'a> {
    subject: &'a dyn Calls,
    answers: BTreeMap<(&'static str, u32), u64>,
    registers: [u64; 2],
    checks: u64,
    disagreements: u64,
}

/// An empty job whose arrays hold what no call leaves.
pub const FILLED: Job = Job {
    head: Head::EMPTY,
    declared: [0xa5a5_a5a5_a5a5_a5a5; 32],
    sums: [0xa5a5; 512],
    taps: [0xa5a5; 65],
    counts: [0xa5a5; 5],
    lengths: [0xa5a5; 8],
    places: [0xa5a5; 8],
    sizes: [0xa5a5; 8],
    discs: [0xa5a5; 8],
    quotients: [0xa5a5; 8],
    current: [0xa5a5; 144],
    symbols: [0xa5a5; 1152],
    saved: [0xa5a5; 1152],
};

/// A lent buffer, between two margins that no call may touch.
#[derive(Clone, Debug, PartialEq)]
pub struct Lent(Vec<u16>);

const MARGIN: usize = 3;

impl Lent {
    pub fn new(contents: &[u16]) -> Lent {
        let margin = [0xa5a5; MARGIN];
        Lent([&margin, contents, &margin].concat())
    }

    pub fn contents(&mut self) -> &mut [u16] {
        let end = self.0.len() - MARGIN;
        &mut self.0[MARGIN..end]
    }
}

/// A job, declared cells and a frame, as lent to a call, each between two margins.
#[repr(C)]
#[derive(Clone, Debug, PartialEq)]
struct Held {
    before: u64,
    job: Job,
    between: u64,
    declared: Declared,
    after: u64,
    frame: Lent,
}

impl Held {
    fn new(job: &Job, declared: &Declared, frame: &[u16]) -> Held {
        Held {
            before: u64::MAX,
            job: *job,
            between: u64::MAX,
            declared: *declared,
            after: u64::MAX,
            frame: Lent::new(frame),
        }
    }
}

/// What a refused call leaves: the job as it was, but shaped after the refusals of a register.
fn refused(job: &Job, refusal: u32) -> Job {
    match refusal {
        24..=26 => Job {
            head: job.head.reshaped(),
            ..*job
        },
        _ => *job,
    }
}

/// The head without the differences that nobody can see between values that count as the same: the
/// phase of one that counts as empty, and the length and alone mark of one that is not located.
pub fn settled(head: &Head) -> Head {
    match shape_of(head) {
        None => Head {
            phase: EMPTY,
            alone: 0,
            length: 0,
            ..*head
        },
        Some(_) if head.phase != LOCATED => Head {
            alone: 0,
            length: 0,
            ..*head
        },
        Some(_) => *head,
    }
}

impl<'a> Judge<'a> {
    pub fn new(subject: &'a dyn Calls) -> Judge<'a> {
        Judge {
            subject,
            answers: BTreeMap::new(),
            registers: [0; 2],
            checks: 0,
            disagreements: 0,
        }
    }

    /// Compares two values, and prints the first pair that differs, with what led to it.
    pub fn compare<T: Debug + PartialEq>(
        &mut self,
        what: &str,
        inputs: &dyn Debug,
        expected: T,
        got: T,
    ) {
        self.checks += 1;
        if expected == got {
            return;
        }
        self.disagreements += 1;
        if self.disagreements == 1 {
            println!(
                "first disagreement: {what}\n  inputs: {inputs:?}\n  expected: {expected:?}\n  got: {got:?}"
            );
        }
    }

    pub fn expect(&mut self, what: &str, inputs: &dyn Debug, holds: bool) {
        self.compare(what, inputs, true, holds);
    }

    /// The implementation under test.
    pub fn subject(&self) -> &'a dyn Calls {
        self.subject
    }

    /// Its calls that locate in slices, where it has them.
    pub fn slices(&self) -> Option<&'a dyn Slices> {
        self.subject.slices()
    }

    /// Its calls on eight jobs, where it has them.
    pub fn eight_jobs(&self) -> Option<&'a dyn EightJobs> {
        self.subject.eight_jobs()
    }

    fn has(&self, call: &str) -> bool {
        match call {
            "start" | "step" | "peek" => self.slices().is_some(),
            _ => !call.starts_with("jobs_") || self.eight_jobs().is_some(),
        }
    }

    pub fn answered(&mut self, call: &'static str, refusal: u32) {
        *self.answers.entry((call, refusal)).or_default() += 1;
    }

    /// Makes a call on a job and what is lent beside it with both implementations, and compares what
    /// they answer, the frame, and the whole job: to the letter where a call can leave the one
    /// given. Answers what the call answers and the frame.
    fn both<T: Debug + PartialEq>(
        &mut self,
        call: &'static str,
        inputs: &dyn Debug,
        job: &mut Job,
        lent: (&Declared, &[u16]),
        make: &dyn Fn(&dyn Calls, &mut Held) -> (u32, T),
    ) -> (T, Vec<u16>) {
        let inputs = (inputs, ("declared and frame", lent), *job);
        let is_settled = job.head == settled(&job.head);
        let mut before = Held::new(job, lent.0, lent.1);
        let (mut expected, mut got) = (before.clone(), before.clone());
        let wanted = make(&Independent, &mut expected);
        let answer = make(self.subject, &mut got);
        self.compare(&format!("{call}: the answer"), &inputs, &wanted, &answer);
        *job = got.job;
        if !is_settled {
            for held in [&mut before, &mut expected, &mut got] {
                held.job.head = settled(&held.job.head);
            }
        }
        let (refusal, answer) = answer;
        self.answered(call, refusal);
        if refusal != 0 {
            before.job = refused(&before.job, refusal);
            self.compare(
                &format!("{call}: what a refusal leaves"),
                &inputs,
                &before,
                &got,
            );
        }
        let left = got.frame.contents().to_vec();
        self.compare(
            &format!("{call}: the job and the frame"),
            &inputs,
            expected,
            got,
        );
        (answer, left)
    }

    /// Answers the register and the tap buffer.
    pub fn find(
        &mut self,
        p: u32,
        lengths: &[u16],
        symbols: &[u16],
        tap_count: usize,
    ) -> (Register, Vec<u16>) {
        let filler: Vec<u16> = (0..tap_count).map(|k| 60000 + k as u16).collect();
        let (mut expected, mut got) = (Lent::new(&filler), Lent::new(&filler));
        let wanted = Independent.find(p, lengths, symbols, expected.contents());
        let found = self.subject.find(p, lengths, symbols, got.contents());
        let inputs = (
            ("p", p),
            ("lengths", lengths),
            ("symbols", symbols),
            ("taps", tap_count),
        );
        self.compare("find: the register", &inputs, wanted, found);
        let taps = got.contents().to_vec();
        self.compare("find: the tap buffer", &inputs, expected, got);
        self.answered("find", found.refusal);
        if found.refusal == 0 {
            self.registers[usize::from(found.alone == 1)] += 1;
        }
        (found, taps)
    }

    /// Answers the columns. The taps are only read.
    pub fn search(&mut self, columns: usize, taps: &[u16]) -> Columns {
        let lent = Lent::new(taps);
        let mut left = lent.clone();
        let wanted = Independent.search(columns, taps);
        let found = self.subject.search(columns, left.contents());
        let inputs = (("columns", columns), ("taps", taps));
        self.compare("search: the columns", &inputs, wanted, found);
        self.compare("search: the taps", &inputs, lent, left);
        self.answered("search", found.refusal);
        found
    }

    /// The job that was shaped, with arrays of anything, and is made empty.
    pub fn empty(&mut self) -> Job {
        let mut job = Job {
            head: Head::shaped(7, &[3], 5),
            ..FILLED
        };
        self.both("empty", &(), &mut job, (&NOTHING, &[]), &|calls, held| {
            (0, calls.empty(&mut held.job))
        });
        job
    }

    /// Answers the refusal.
    pub fn shape(&mut self, job: &mut Job, columns: usize, checks: &[u16], exponent: u32) -> u32 {
        let inputs = (
            ("columns", columns),
            ("checks", checks),
            ("exponent", exponent),
        );
        let lent = (&NOTHING, &[][..]);
        let (refusal, _) = self.both("shape", &inputs, job, lent, &|calls, held| {
            let refusal = calls.shape(&mut held.job, columns, checks, exponent);
            (refusal, refusal)
        });
        refusal
    }

    /// Answers the refusal and the frame.
    pub fn encode(&mut self, job: &Job, frame: &[u16]) -> (u32, Vec<u16>) {
        let lent = (&NOTHING, frame);
        self.both("encode", &(), &mut { *job }, lent, &|calls, held| {
            let refusal = calls.encode(&held.job, held.frame.contents());
            (refusal, refusal)
        })
    }

    pub fn locate(&mut self, job: &mut Job, declared: &Declared, frame: &[u16]) -> Answer {
        let lent = (declared, frame);
        let (answer, _) = self.both("locate", &(), job, lent, &|calls, held| {
            let answer = calls.locate(&mut held.job, &held.declared, held.frame.contents());
            (answer.refusal, answer)
        });
        answer
    }

    /// Answers the answer and the frame.
    pub fn repair(&mut self, job: &mut Job, frame: &[u16]) -> (Answer, Vec<u16>) {
        let lent = (&NOTHING, frame);
        self.both("repair", &(), job, lent, &|calls, held| {
            let answer = calls.repair(&mut held.job, held.frame.contents());
            (answer.refusal, answer)
        })
    }

    /// Prints how often each answer came, and the verdict. True if all is well.
    pub fn finish(mut self) -> bool {
        for (call, refusals) in ANSWERS {
            if !self.has(call) {
                continue;
            }
            for &refusal in refusals {
                let count = self.answers.get(&(call, refusal)).copied().unwrap_or(0);
                println!("{call:>11} {refusal:>2}: {count}");
                self.expect(
                    "an answer that was never given",
                    &(call, refusal),
                    count > 0,
                );
            }
        }
        let [several, alone] = self.registers;
        println!("registers alone: {alone}, not alone: {several}");
        self.expect(
            "registers of both kinds",
            &self.registers.clone(),
            several > 0 && alone > 0,
        );
        println!(
            "tests: {} checks, {} disagreements",
            self.checks, self.disagreements
        );
        self.disagreements == 0
    }
}
