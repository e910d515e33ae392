//! Locating in slices against locating at once by sums alone: how many steps there are, what each answers, what the
//! last one leaves, each peek against elimination; calls between steps that drop nothing, calls that
//! drop the unfinished locate; frames with nothing to step; and jobs that no call left.

use common::interface::{Answer, Declared, Head, Job, LOCATED, Peeked, SHAPED, Slices, UNFINISHED};
use common::random::Random;

use crate::independent::frames::{Shape, cells_of, declaring, is_uniform};
use crate::independent::registers::shortest;
use crate::independent::{Independent, frame_refusal, locate_by_sums, sequences, uniform_at};
use crate::judge::{FILLED, Judge, Tally};
use crate::trials::{
    bad_cells, damaged, even_shape, malformed, refilled, shaped, some_cells, some_codeword,
    some_shape,
};
use common::interface::Calls;

/// What uniform codewords bring about after slices.
const DEAD_LINES: [&str; 4] = [
    "repair 26 after slices, a uniform frame as it is",
    "repair 26 after slices, of another symbol than 0",
    "repair 26 after slices, with damage",
    "repair 26 after slices, with lost cells",
];

/// A frame that was lent to a start, and what a locate by its sums does with it.
struct Started {
    declared: Declared,
    frame: Vec<u16>,
    sequences: Vec<Vec<u64>>,
    answer: Answer,
    left: Job,
}

impl Started {
    fn longest(&self) -> usize {
        self.sequences.iter().map(Vec::len).max().unwrap_or(0)
    }

    fn steps(&self) -> usize {
        self.longest() * self.sequences.len()
    }
}

struct Slicer<'a, 'b> {
    judge: &'a mut Judge<'b>,
    slices: &'b dyn Slices,
    random: &'a mut Random,
    shape: Shape,
    job: Job,
    tally: &'a mut Tally,
}

pub fn run(judge: &mut Judge) {
    let Some(slices) = judge.slices() else { return };
    let mut random = Random::new(17);
    let mut tally = Tally::of(&DEAD_LINES);
    for most in [vec![7; 1_200], vec![40; 60], vec![256; 6]].concat() {
        let shape = match random.once_in(4) {
            true => even_shape(&mut random, most),
            false => some_shape(&mut random, most),
        };
        let job = shaped(&shape);
        let mut slicer = Slicer {
            judge,
            slices,
            random: &mut random,
            shape,
            job,
            tally: &mut tally,
        };
        slicer.empty();
        slicer.whole();
        slicer.dropped();
        slicer.forged();
        slicer.forged_head();
    }
    tally.finish(judge);
}

/// Anything in some place of the arrays of a locate in slices.
pub fn forge_arrays(random: &mut Random, job: &mut Job) {
    let any = random.bits() as u16;
    let value = random.pick(&[any, 0, 1, 64, 256, 257, 65535]);
    let arrays: [&mut [u16]; 9] = [
        &mut job.counts,
        &mut job.lengths,
        &mut job.symbols,
        &mut job.places,
        &mut job.sizes,
        &mut job.discs,
        &mut job.quotients,
        &mut job.current,
        &mut job.saved,
    ];
    let array = random.below(9);
    let place = random.below(arrays[array].len().min(160));
    arrays.into_iter().nth(array).expect("one of nine")[place] = value;
}

impl Slicer<'_, '_> {
    /// A frame with declared cells and damage, now and then with a row or all rows declared as far as
    /// they have checks.
    fn some_frame(&mut self) -> (Declared, Vec<u16>) {
        let shape = &self.shape;
        let mut declared = some_cells(self.random, shape);
        if self.random.once_in(6) {
            let all = self.random.once_in(2);
            let cells = |(h, &checks): (usize, &u16)| {
                if all || self.random.once_in(2) {
                    return self.random.subset(shape.columns, usize::from(checks));
                }
                cells_of(&declared, h)
            };
            declared = declaring(
                &shape
                    .checks
                    .iter()
                    .enumerate()
                    .map(cells)
                    .collect::<Vec<_>>(),
            );
        }
        let sent = some_codeword(self.random, shape, &declared);
        let left = shape.least_left(&declared);
        let most = shape.columns.min(left + 2);
        let any = self.random.below(most + 1);
        let count = self.random.pick(&[0, any, any]);
        let frame = damaged(self.random, shape, &sent, count);
        (declared, refilled(self.random, shape, &declared, &frame))
    }

    fn started(&self, declared: Declared, frame: Vec<u16>) -> Started {
        let mut left = self.job;
        let answer = locate_by_sums(&mut left, &declared, &frame);
        Started {
            sequences: sequences(&self.shape, &declared, &frame),
            declared,
            frame,
            answer,
            left,
        }
    }

    fn start(&mut self, started: &Started) -> Answer {
        let answer = self
            .slices
            .start(&mut self.job, &started.declared, &started.frame);
        self.judge.answered("start", answer.refusal);
        answer
    }

    fn step(&mut self) -> Answer {
        let answer = self.slices.step(&mut self.job);
        self.judge.answered("step", answer.refusal);
        answer
    }

    fn peek(&mut self) -> Peeked {
        let before = self.job;
        let peeked = self.slices.peek(&self.job);
        self.judge.answered("peek", peeked.refusal);
        self.judge
            .compare("a peek leaves the job", &before.head, before, self.job);
        peeked
    }

    fn expect(&mut self, what: &str, started: &Started, holds: bool) {
        let inputs = (&self.shape, &started.declared, &started.frame);
        self.judge.expect(what, &inputs, holds);
    }

    /// An empty job meets 21, one with nothing unfinished 33.
    fn empty(&mut self) {
        let (declared, frame) = self.some_frame();
        let job = std::mem::replace(&mut self.job, FILLED);
        for number in [21, 33] {
            let step = self.step();
            self.judge
                .compare("a step with none", &number, Answer::refused(number), step);
            let peek = self.peek();
            self.judge
                .compare("a peek with none", &number, Peeked::refused(number), peek);
            if number == 21 {
                let answer = self.slices.start(&mut self.job, &declared, &frame);
                self.judge.answered("start", answer.refusal);
                self.judge
                    .compare("a start of none", &(), Answer::refused(21), answer);
                self.job = job;
            }
        }
    }

    /// A call between two steps that is refused, or an encode: nothing is dropped.
    fn between(&mut self) {
        let (declared, frame) = self.some_frame();
        let before = self.job;
        let bad = malformed(self.random, &self.shape, &frame);
        let refused = frame_refusal(&self.shape, &declared, &bad) != 0;
        let number = self.random.below(5);
        match number {
            0 => {
                let answer = self.judge.repair(&mut self.job, &frame).0;
                self.judge
                    .compare("a repair between steps", &before.head, 22, answer.refusal);
            }
            1 => {
                self.judge.encode(&self.job, &frame);
            }
            2 if refused => {
                self.judge.locate(&mut self.job, &declared, &bad);
            }
            3 => {
                let cells = bad_cells(self.random, &self.shape);
                let answer = self.slices.start(&mut self.job, &cells, &frame);
                self.judge.answered("start", answer.refusal);
                self.judge
                    .compare("a start of bad cells", &before.head, 31, answer.refusal);
            }
            _ if refused => {
                let expected = frame_refusal(&self.shape, &declared, &bad);
                let answer = self.slices.start(&mut self.job, &declared, &bad);
                self.judge.answered("start", answer.refusal);
                let expected = Answer::refused(expected);
                self.judge
                    .compare("a refused start", &before.head, expected, answer);
            }
            _ => {}
        }
        self.judge
            .compare("a call between steps", &number, before, self.job);
    }

    /// The length of the shortest register of the symbols that n finished rounds have looked at.
    fn shortened(sequences: &[Vec<u64>], longest: usize, n: usize) -> u64 {
        let cut: Vec<Vec<u64>> = sequences
            .iter()
            .map(|s| s[..s.len().saturating_sub(longest - n)].to_vec())
            .collect();
        shortest(257, &cut).0 as u64
    }

    /// All steps of a frame, and a repair.
    fn whole(&mut self) {
        let (declared, frame) = self.some_frame();
        let started = self.started(declared, frame);
        let (longest, rows) = (started.longest(), started.sequences.len());
        let mut answer = self.start(&started);
        for done in 0..longest * rows {
            let goes_on = Answer {
                unfinished: 1,
                ..Answer::refused(0)
            };
            self.expect(
                "unfinished",
                &started,
                answer == goes_on && self.job.head.phase == UNFINISHED,
            );
            if self.random.once_in(2 + longest * rows / 20) {
                let length = Self::shortened(&started.sequences, longest, done / rows);
                let peeked = self.peek();
                self.expect("a peek", &started, peeked == Peeked { refusal: 0, length });
            }
            if self.random.once_in(3 + longest * rows / 8) {
                self.between();
            }
            answer = self.step();
        }
        self.expect("the last answer", &started, answer == started.answer);
        self.ended(&started);
    }

    /// What is left at the end is what locate by sums leaves; no step comes after; a repair does the same, and
    /// is refused by 26 exactly where locate would have refused a uniform codeword.
    fn ended(&mut self, started: &Started) {
        let (job, left) = (self.job, started.left);
        self.expect("the head at the end", started, job.head == left.head);
        if left.head.phase == LOCATED {
            let same = (job.sums, job.taps, job.declared) == (left.sums, left.taps, left.declared);
            self.expect("what is held at the end", started, same);
        }
        let over = (self.step(), self.peek(), self.job);
        let none = (Answer::refused(33), Peeked::refused(33), job);
        self.expect("no step comes after", started, over == none);
        let (ours, frame) = self.judge.repair(&mut self.job, &started.frame);
        let mut mended = started.frame.clone();
        let theirs = Independent.repair(&mut { left }, &mut mended);
        self.expect("the repair", started, (ours, frame) == (theirs, mended));
        let uniform = uniform_at(&self.shape, &started.declared, &started.frame);
        self.expect(
            "26 after slices",
            started,
            uniform.is_some() == (ours.refusal == 26),
        );
        let (Some(distance), 26) = (uniform, ours.refusal) else {
            return;
        };
        let again = self.judge.repair(&mut self.job, &started.frame).0.refusal;
        self.expect("nothing is located after 26", started, again == 22);
        let is_constant = is_uniform(&started.frame);
        let mut count = |what: &str, came: bool| {
            let name = format!("repair 26 after slices, {what}");
            self.tally.count(&name, came);
        };
        count("a uniform frame as it is", is_constant);
        let is_other = is_constant && started.frame[0] != 0;
        count("of another symbol than 0", is_other);
        count("with damage", distance > 0);
        count("with lost cells", distance == 0 && !is_constant);
    }

    /// Some steps, then a call that drops the unfinished locate if it is not refused early.
    fn dropped(&mut self) {
        let (declared, frame) = self.some_frame();
        let started = self.started(declared, frame);
        if self.start(&started).unfinished == 0 {
            return;
        }
        for _ in 0..self.random.below(4) {
            self.step();
        }
        if self.job.head.phase != UNFINISHED {
            return;
        }
        let (declared, frame) = self.some_frame();
        match self.random.below(3) {
            0 => {
                let Shape {
                    columns,
                    ref checks,
                    exponent,
                } = self.shape;
                self.judge.shape(&mut self.job, columns, checks, exponent);
                self.expect("a shape drops", &started, self.job.head.phase == SHAPED);
            }
            1 => {
                self.judge.locate(&mut self.job, &declared, &frame);
                self.expect(
                    "a locate drops",
                    &started,
                    self.job.head.phase != UNFINISHED,
                );
            }
            _ => {
                let other = self.started(declared, frame);
                let mut answer = self.start(&other);
                for _ in 0..other.steps() {
                    answer = self.step();
                }
                self.expect("another start", &other, answer == other.answer);
                self.ended(&other);
                return;
            }
        }
        let refusal = self.step().refusal;
        self.expect("nothing is unfinished", &started, refusal == 33);
    }

    /// An unfinished job with anything in some place of its arrays: each call answers, and a number that
    /// no call leaves makes it count as shaped.
    fn forged(&mut self) {
        let (declared, frame) = self.some_frame();
        let started = self.started(declared, frame.clone());
        if self.start(&started).unfinished == 0 {
            return;
        }
        let mut bad = self.job;
        bad.counts[2] = self.shape.checks.len() as u16;
        let refusal = self.slices.step(&mut bad).refusal;
        self.expect("a step past the rows", &started, refusal == 33);
        for _ in 0..self.random.from_to(1, 6) {
            forge_arrays(self.random, &mut self.job);
        }
        for _ in 0..600 {
            let [step, peek] = [self.slices.step(&mut self.job).refusal, self.peek().refusal];
            let known = [0, 24, 25, 26, 33].contains(&step) && [0, 33].contains(&peek);
            self.expect("a forged job", &started, known);
            if self.job.head.phase != UNFINISHED || step == 33 {
                break;
            }
        }
        let mut frame = frame;
        self.slices.start(&mut self.job, &started.declared, &frame);
        self.judge.subject().repair(&mut self.job, &mut frame);
        self.job = shaped(&self.shape);
    }
    /// An unfinished job whose head no call left. With marks it goes on, and has none after the step. Out
    /// of its ranges it counts as empty, and in another phase nothing is unfinished: nothing is changed.
    fn forged_head(&mut self) {
        let (declared, frame) = self.some_frame();
        let started = self.started(declared, frame);
        if self.start(&started).unfinished == 0 || started.steps() < 2 {
            return;
        }
        let job = self.job;
        let head = job.head;
        self.job.head.marks = [self.random.bits() | 1; 4];
        self.job.head.length = self.random.bits();
        self.job.head.alone = 1;
        let answer = self.step();
        let goes_on = answer.unfinished == 1 && self.job.head == head;
        self.expect("a step of a head with marks", &started, goes_on);
        let forge: [(u32, fn(&mut Head)); 7] = [
            (21, |head| head.exponent = 256),
            (21, |head| head.rows = 0),
            (21, |head| head.rows = 9),
            (21, |head| head.columns = 257),
            (21, |head| head.checks[0] = 65),
            (21, |head| head.phase = 4),
            (33, |head| head.phase = SHAPED),
        ];
        for (number, change) in forge {
            self.job = job;
            change(&mut self.job.head);
            let forged = self.job;
            let answer = self.step();
            let refused = answer == Answer::refused(number);
            let kept = Job { head, ..self.job } == Job { head, ..forged };
            self.expect("a step of a forged head", &started, refused && kept);
        }
        self.job = shaped(&self.shape);
    }
}
