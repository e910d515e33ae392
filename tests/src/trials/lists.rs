//! Demand 3 on random lists of calls, each on the job that the call before it left. What is
//! promised is checked from the calls alone; nothing here reads a job.

use common::interface::{Declared, Job, NOTHING};
use common::random::Random;

use crate::independent::frames::{Shape, as_read, differing, is_legal, is_uniform, marks_of};
use crate::independent::{frame_refusal, uniform_at};
use crate::judge::{Judge, Tally};
use crate::trials::{
    bad_cells, codeword_beside, damaged, frames, malformed, minus, plus, refilled, some_cells,
    some_codeword, some_encode, some_shape, some_uniform_codeword,
};

/// What uniform codewords bring about in these lists.
const DEAD_LINES: [&str; 8] = [
    "encode 34, of zeros",
    "encode 34, of another symbol",
    "locate 26, a uniform frame as it is",
    "locate 26, a uniform frame of another symbol than 0",
    "locate 26, a uniform frame with damage",
    "locate 26, a uniform frame with lost cells",
    "repair 26, a frame with the sums of another",
    "repair 23, a frame close to uniform",
];

/// A located frame that nothing but encodes and refused calls followed, its declared cells, and the
/// frame that was sent where so few columns were damaged that it must come back.
struct Pending {
    declared: Declared,
    received: Vec<u16>,
    sent: Option<Vec<u16>>,
}

struct List<'a, 'b> {
    judge: &'a mut Judge<'b>,
    random: &'a mut Random,
    job: Job,
    /// That of the last shape call not refused.
    shape: Option<Shape>,
    pending: Option<Pending>,
    tally: &'a mut Tally,
}

pub fn run(judge: &mut Judge) {
    let mut random = Random::new(5);
    let mut tally = Tally::of(&DEAD_LINES);
    for _ in 0..700 {
        let job = judge.empty();
        let mut list = List {
            judge,
            random: &mut random,
            job,
            shape: None,
            pending: None,
            tally: &mut tally,
        };
        for _ in 0..40 {
            list.call();
        }
    }
    tally.finish(judge);
}

impl List<'_, '_> {
    fn call(&mut self) {
        match self.random.below(17) {
            0..2 => self.shape(),
            2..4 => self.encode(),
            4..10 => self.locate(),
            _ => self.repair(),
        }
    }

    /// A shape to make frames for: the one in force, or one that no call gave before the first.
    fn shape_in_force(&mut self) -> Shape {
        let other = some_shape(self.random, 6);
        self.shape.clone().unwrap_or(other)
    }

    /// Any shape, or the one in force with another exponent; now and then one that is refused.
    fn shape(&mut self) {
        let most = self.random.pick(&[4, 7, 7, 7, 30]);
        let mut shape = some_shape(self.random, most);
        if self.random.once_in(2) {
            let exponent = shape.exponent;
            shape = Shape {
                exponent,
                ..self.shape_in_force()
            };
        }
        match self.random.below(8) {
            0..2 => {
                let place = self.random.below(shape.checks.len());
                shape.checks[place] = self.random.pick(&[0, shape.columns as u16, 65]);
            }
            2 => shape.exponent += self.random.pick(&[256, 65_536]),
            _ => {}
        }
        let refusal = self
            .judge
            .shape(&mut self.job, shape.columns, &shape.checks, shape.exponent);
        if refusal == 0 {
            self.shape = Some(shape);
            self.pending = None;
        }
    }

    fn encode(&mut self) {
        let shape = self.shape_in_force();
        let mut frame = some_encode(self.random, &shape);
        if self.random.once_in(3) {
            frame = malformed(self.random, &shape, &frame);
        }
        let (refusal, left) = self.judge.encode(&self.job, &frame);
        if refusal == 0 {
            self.judge.expect(
                "encode leaves a legal frame",
                &(&shape, &frame),
                is_legal(&shape, &left),
            );
        }
        if refusal == 34 {
            let is_zero = frame[shape.size() - 1] == 0;
            self.tally.count("encode 34, of zeros", is_zero);
            self.tally.count("encode 34, of another symbol", !is_zero);
        }
    }

    fn locate(&mut self) {
        let shape = self.shape_in_force();
        let mut declared = some_cells(self.random, &shape);
        let sent = some_codeword(self.random, &shape, &declared);
        let left = shape.least_left(&declared);
        let count = self.random.below(shape.columns.min(left + 1) + 1);
        let mut received = damaged(self.random, &shape, &sent, count);
        received = refilled(self.random, &shape, &declared, &received);
        if self.random.once_in(5) {
            received = malformed(self.random, &shape, &received);
        }
        if self.random.once_in(10) {
            declared = bad_cells(self.random, &shape);
        }
        let answer = self.judge.locate(&mut self.job, &declared, &received);
        let within = frame_refusal(&shape, &declared, &received) == 0
            && 2 * differing(&shape, &declared, &sent, &received).len() <= left;
        if self.shape.is_some() && within {
            self.judge.compare(
                "damage within half the checks left is located, but for a dead line",
                &(&shape, &declared, &received),
                if is_uniform(&sent) { 26 } else { 0 },
                answer.refusal,
            );
        }
        if answer.refusal == 26 {
            self.count_dead(&shape, &declared, &received);
        }
        match answer.refusal {
            0 => {
                self.pending = Some(Pending {
                    declared,
                    received,
                    sent: within.then_some(sent),
                })
            }
            24..=26 => self.pending = None,
            _ => {}
        }
    }

    /// What of a frame refused by 26 comes of a uniform codeword.
    fn count_dead(&mut self, shape: &Shape, declared: &Declared, received: &[u16]) {
        let Some(distance) = uniform_at(shape, declared, received) else {
            return;
        };
        let mut count = |what: &str, came: bool| {
            let name = format!("locate 26, a uniform frame {what}");
            self.tally.count(&name, came);
        };
        count("as it is", is_uniform(received));
        let is_other = is_uniform(received) && received[0] != 0;
        count("of another symbol than 0", is_other);
        count("with damage", distance > 0);
        let is_lost = distance == 0 && !is_uniform(received);
        count("with lost cells", is_lost);
    }

    /// The located frame, with anything in its declared cells; another with the same sums; one with
    /// others; one that is malformed.
    fn repair(&mut self) {
        let shape = self.shape_in_force();
        let Some(Pending {
            declared,
            received,
            sent,
        }) = &self.pending
        else {
            let frame = some_codeword(self.random, &shape, &NOTHING);
            self.mend(&shape, &frame, None);
            return;
        };
        let (declared, sent) = (*declared, sent.clone());
        let received = refilled(self.random, &shape, &declared, received);
        let read = as_read(&shape, &declared, &received);
        match self.random.below(5) {
            0 => {
                let refusal = self.mend(&shape, &received, sent);
                self.judge
                    .compare("the located frame is mended", &shape, 0, refusal);
            }
            1 => {
                let other = codeword_beside(self.random, &shape, &declared);
                let frame = refilled(self.random, &shape, &declared, &plus(&read, &other));
                self.mend(&shape, &frame, sent.map(|sent| plus(&sent, &other)));
            }
            2 => self.mend_uniform(&shape, &declared, &read, sent),
            3 => {
                let altered = damaged(self.random, &shape, &read, 1);
                self.mend(&shape, &altered, None);
            }
            _ => {
                let bad = malformed(self.random, &shape, &received);
                self.mend(&shape, &bad, None);
            }
        }
    }

    /// The damage to what was sent, done to a uniform codeword: a frame with the sums of the one located
    /// where the two codewords agree in the declared cells. The same with one column more altered.
    fn mend_uniform(
        &mut self,
        shape: &Shape,
        declared: &Declared,
        read: &[u16],
        sent: Option<Vec<u16>>,
    ) {
        let uniform = some_uniform_codeword(self.random, shape);
        let Some(sent) = sent else {
            self.mend(shape, &uniform, None);
            return;
        };
        let damage = minus(read, &as_read(shape, declared, &sent));
        let frame = plus(&as_read(shape, declared, &uniform), &damage);
        let altered = damaged(self.random, shape, &frame, 1);
        let refusal = self.mend(shape, &altered, None);
        self.tally
            .count("repair 23, a frame close to uniform", refusal == 23);
        if refusal != 23 {
            return;
        }
        let frame = refilled(self.random, shape, declared, &frame);
        let other = minus(&uniform, &sent);
        let fits = as_read(shape, declared, &other) == other;
        let refusal = self.mend(shape, &frame, fits.then_some(uniform));
        let name = "repair 26, a frame with the sums of another";
        self.tally.count(name, refusal == 26);
    }

    /// Lends a frame to repair, which must leave the given codeword where there is one, but is refused by
    /// 26 where that is uniform, after which the job is shaped. Answers the refusal.
    fn mend(&mut self, shape: &Shape, frame: &[u16], sent: Option<Vec<u16>>) -> u32 {
        let (answer, left) = self.judge.repair(&mut self.job, frame);
        let inputs = (shape, frame);
        if let Some(sent) = sent {
            let due = match is_uniform(&sent) {
                true => (26, frame.to_vec()),
                false => (0, sent),
            };
            let got = (answer.refusal, left.clone());
            self.judge
                .compare("the sent frame comes back", &inputs, due, got);
        }
        if answer.refusal == 26 {
            self.pending = None;
            let again = self.judge.repair(&mut self.job, frame).0.refusal;
            self.judge
                .compare("nothing is located after 26", &inputs, 22, again);
        }
        if answer.refusal != 0 {
            return answer.refusal;
        }
        self.judge.expect(
            "repair leaves a legal frame",
            &inputs,
            is_legal(shape, &left),
        );
        let pending = self.pending.take();
        let Some(Pending { declared, .. }) = pending else {
            self.judge
                .expect("a repair goes back to a locate", &inputs, false);
            return 0;
        };
        let columns = differing(shape, &declared, frame, &left);
        self.judge.compare(
            "the count is the distance",
            &inputs,
            columns.len(),
            answer.count as usize,
        );
        self.judge.compare(
            "the marks are the columns that differ",
            &inputs,
            marks_of(&columns),
            answer.marks,
        );
        if shape.columns <= 7 {
            frames::exhaustive(self.judge, shape, &declared, frame, &answer, &left);
        }
        0
    }
}
