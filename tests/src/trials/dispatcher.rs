//! Eight jobs and turns against eight jobs by themselves, each with the calls on it and the steps that
//! turns make of it: after each event what was answered, the frame, all eight jobs and who was served
//! last. How long a job waits is counted through all of it. Numbers of no job, turns with nothing
//! unfinished, the longest wait that there is; and dispatchers that no call left.

use common::interface::{
    Answer, Calls, Declared, Dispatcher, EightJobs, Head, Job, NOTHING, Peeked, Slices, Turned,
    UNFINISHED,
};
use common::random::Random;

use crate::independent::frames::Shape;
use crate::independent::{sequences, shape_of};
use crate::judge::{FILLED, Judge, Lent, settled};
use crate::trials::forged::forge;
use crate::trials::slices::forge_arrays;
use crate::trials::{
    bad_cells, damaged, malformed, refilled, some_cells, some_codeword, some_encode,
    some_legal_frame, some_shape,
};

#[derive(Clone, Debug)]
enum Call {
    Shape(Shape),
    Encode,
    Locate,
    Repair,
    Start,
    Step,
    Peek,
}

/// A call on one of the jobs, with what is lent to it.
#[derive(Clone, Debug)]
struct Event {
    call: Call,
    declared: Declared,
    frame: Vec<u16>,
}

#[derive(Clone, Copy, Debug, PartialEq)]
enum Said {
    Refusal(u32),
    Answer(Answer),
    Peeked(Peeked),
}

impl Said {
    fn refusal(&self) -> u32 {
        match self {
            Said::Refusal(refusal) => *refusal,
            Said::Answer(answer) => answer.refusal,
            Said::Peeked(peeked) => peeked.refusal,
        }
    }
}

/// A dispatcher and declared cells, as lent to a call, each between two margins.
#[repr(C)]
#[derive(Clone, Debug, PartialEq)]
struct Held {
    before: u64,
    jobs: Dispatcher,
    between: u64,
    declared: Declared,
    after: u64,
}

impl Event {
    fn new(call: Call, declared: Declared, frame: Vec<u16>) -> Event {
        Event {
            call,
            declared,
            frame,
        }
    }

    fn name(&self) -> &'static str {
        match self.call {
            Call::Shape(_) => "jobs_shape",
            Call::Encode => "jobs_encode",
            Call::Locate => "jobs_locate",
            Call::Repair => "jobs_repair",
            Call::Start => "jobs_start",
            Call::Step => "jobs_step",
            Call::Peek => "jobs_peek",
        }
    }

    fn refused(&self, refusal: u32) -> Said {
        match self.call {
            Call::Shape(_) | Call::Encode => Said::Refusal(refusal),
            Call::Peek => Said::Peeked(Peeked::refused(refusal)),
            _ => Said::Answer(Answer::refused(refusal)),
        }
    }

    /// The call on a job by itself.
    fn alone(
        &self,
        one: &dyn Calls,
        slices: &dyn Slices,
        job: &mut Job,
        frame: &mut [u16],
    ) -> Said {
        match &self.call {
            Call::Shape(shape) => {
                Said::Refusal(one.shape(job, shape.columns, &shape.checks, shape.exponent))
            }
            Call::Encode => Said::Refusal(one.encode(job, frame)),
            Call::Locate => Said::Answer(one.locate(job, &self.declared, frame)),
            Call::Repair => Said::Answer(one.repair(job, frame)),
            Call::Start => Said::Answer(slices.start(job, &self.declared, frame)),
            Call::Step => Said::Answer(slices.step(job)),
            Call::Peek => Said::Peeked(slices.peek(job)),
        }
    }

    /// The call on job k of eight.
    fn among(&self, eight: &dyn EightJobs, held: &mut Held, k: usize, frame: &mut [u16]) -> Said {
        let Held { jobs, declared, .. } = held;
        match &self.call {
            Call::Shape(shape) => {
                let Shape {
                    columns,
                    ref checks,
                    exponent,
                } = *shape;
                Said::Refusal(eight.shape(jobs, k, columns, checks, exponent))
            }
            Call::Encode => Said::Refusal(eight.encode(jobs, k, frame)),
            Call::Locate => Said::Answer(eight.locate(jobs, k, declared, frame)),
            Call::Repair => Said::Answer(eight.repair(jobs, k, frame)),
            Call::Start => Said::Answer(eight.start(jobs, k, declared, frame)),
            Call::Step => Said::Answer(eight.step(jobs, k)),
            Call::Peek => Said::Peeked(eight.peek(jobs, k)),
        }
    }
}

/// A locate that was started and not dropped: the turns since, and how many steps it takes.
#[derive(Clone, Copy, Debug)]
struct Begun {
    turns: usize,
    steps: usize,
}

struct Trial<'a, 'b> {
    judge: &'a mut Judge<'b>,
    random: &'a mut Random,
    slices: &'b dyn Slices,
    eight: &'b dyn EightJobs,
    /// The most columns that a shape has here.
    most: usize,
    held: Box<Held>,
    /// Each job by itself, and what the dispatcher must be by them.
    jobs: [Job; 8],
    expected: Box<Held>,
    /// What was last lent to a locate or a start of each job that was not refused.
    lent: [Option<Event>; 8],
    /// Turns in a row that came while the job was unfinished and served another.
    passed_over: [usize; 8],
    begun: [Option<Begun>; 8],
}

pub fn run(judge: &mut Judge) {
    let Some(eight) = judge.eight_jobs() else {
        return;
    };
    let mut random = Random::new(18);
    for most in [vec![4; 250], vec![7; 250], vec![40; 20]].concat() {
        Trial::new(judge, eight, &mut random, most).list();
    }
    for most in [vec![7; 60], vec![40; 4], vec![256; 1]].concat() {
        Trial::new(judge, eight, &mut random, most).never_at_rest();
    }
    Trial::new(judge, eight, &mut random, 4).steps_by_call();
    Trial::new(judge, eight, &mut random, 256).longest_wait();
    for _ in 0..500 {
        Trial::new(judge, eight, &mut random, 7).forged();
    }
}

/// Heads that no call leaves and that nobody can tell apart, a turn neither.
fn alike(a: &Head, b: &Head) -> bool {
    settled(a) == settled(b) && (a.phase == UNFINISHED) == (b.phase == UNFINISHED)
}

impl<'a, 'b> Trial<'a, 'b> {
    fn new(
        judge: &'a mut Judge<'b>,
        eight: &'b dyn EightJobs,
        random: &'a mut Random,
        most: usize,
    ) -> Trial<'a, 'b> {
        let held = Box::new(Held {
            before: u64::MAX,
            jobs: Dispatcher::EMPTY,
            between: u64::MAX,
            declared: NOTHING,
            after: u64::MAX,
        });
        Trial {
            slices: judge.slices().expect("turns make steps"),
            judge,
            random,
            eight,
            most,
            expected: held.clone(),
            held,
            jobs: [Job::EMPTY; 8],
            lent: [const { None }; 8],
            passed_over: [0; 8],
            begun: [None; 8],
        }
    }

    fn is_unfinished(&self, k: usize) -> bool {
        self.jobs[k].head.phase == UNFINISHED
    }

    /// The same of the job under test, for what is counted of it.
    fn is_waiting(&self, k: usize) -> bool {
        self.held.jobs.states[k][0] == UNFINISHED
    }

    /// Whom a turn serves: the first unfinished of the eight after the one served last.
    fn next(&self) -> Option<usize> {
        let last = (self.expected.jobs.last % 8) as usize;
        (1..=8)
            .map(|offset| (last + offset) % 8)
            .find(|&k| self.is_unfinished(k))
    }

    /// Nothing is changed but job k, and that as the job by itself was: to the letter where a call can leave
    /// the head that it had.
    fn compare_jobs(&mut self, what: &str, k: usize, before: &Head) {
        let got = self.held.jobs.job(k);
        if *before != settled(before) && alike(&self.jobs[k].head, &got.head) {
            self.jobs[k].head = got.head;
        }
        let expected = self.jobs[k];
        self.expected.jobs.set_job(k, &expected);
        self.judge
            .compare(&format!("{what}: the job"), &(k, before), expected, got);
        self.compare_rest(what, k);
    }

    fn compare_rest(&mut self, what: &str, k: usize) {
        let same = self.held == self.expected;
        self.judge.expect(
            &format!("{what}: the other jobs, and who was served last"),
            &(k, self.expected.jobs.last, self.held.jobs.last),
            same,
        );
    }

    /// The call on job k and on the same job by itself. Answers what the latter says.
    fn call(&mut self, k: usize, event: &Event) -> Said {
        let name = event.name();
        let before = self.jobs[k].head;
        let (mut expected, mut got) = (Lent::new(&event.frame), Lent::new(&event.frame));
        let [held, model] = [&mut self.held, &mut self.expected];
        held.declared = event.declared;
        model.declared = event.declared;
        let one = self.judge.subject();
        let wanted = event.alone(one, self.slices, &mut self.jobs[k], expected.contents());
        let said = event.among(self.eight, held, k, got.contents());
        self.judge.answered(name, said.refusal());
        self.judge.compare(
            &format!("{name}: the answer and the frame"),
            &(k, event, before),
            (wanted, expected),
            (said, got),
        );
        self.compare_jobs(name, k, &before);
        if matches!(event.call, Call::Locate | Call::Start) && said.refusal() == 0 {
            self.lent[k] = Some(event.clone());
        }
        self.begins(k, event, wanted.refusal());
        wanted
    }

    /// A start that is not refused begins to wait, and what leaves nothing unfinished ends that.
    fn begins(&mut self, k: usize, event: &Event, refusal: u32) {
        if !self.is_unfinished(k) {
            self.begun[k] = None;
        } else if let (Call::Start, 0) = (&event.call, refusal) {
            let shape = shape_of(&self.jobs[k].head).expect("a start wants a shape");
            let sequences = sequences(&shape, &event.declared, &event.frame);
            let longest = sequences.iter().map(Vec::len).max().unwrap_or(0);
            let steps = longest * sequences.len();
            self.begun[k] = Some(Begun { turns: 0, steps });
        }
    }

    fn turn(&mut self) -> Turned {
        let served = self.next();
        let last = self.expected.jobs.last;
        let waiting: Vec<usize> = (0..8).filter(|&k| self.is_waiting(k)).collect();
        let before = served.map(|k| self.jobs[k].head);
        let turned = self.eight.turn(&mut self.held.jobs);
        self.judge.answered("jobs_turn", turned.answer.refusal);
        let mut wanted = Turned {
            job: 8,
            answer: Answer::refused(33),
        };
        if let Some(k) = served {
            wanted.job = k as u64;
            wanted.answer = self.slices.step(&mut self.jobs[k]);
            self.expected.jobs.last = k as u64;
        }
        self.judge
            .compare("a turn", &(last, &waiting), wanted, turned);
        match (served, before) {
            (Some(k), Some(before)) => self.compare_jobs("a turn", k, &before),
            _ => self.compare_rest("a turn", 8),
        }
        self.waits(&waiting, turned.job);
        turned
    }

    /// No job is passed over by eight turns in a row, and none that was started and not dropped is unfinished
    /// after eight turns for each of its steps.
    fn waits(&mut self, waiting: &[usize], served: u64) {
        for k in 0..8 {
            let is_over = served == k as u64 || !waiting.contains(&k);
            self.passed_over[k] = if is_over { 0 } else { self.passed_over[k] + 1 };
            if let Some(begun) = &mut self.begun[k] {
                begun.turns += 1;
            }
        }
        let passed_over = self.passed_over;
        let served_soon = passed_over.iter().all(|&turns| turns < 8);
        self.judge
            .expect("served within eight turns", &passed_over, served_soon);
        let begun = self.begun;
        let late = |k: usize| begun[k].is_some_and(|begun| begun.turns >= 8 * begun.steps);
        let done = (0..8).all(|k| !self.is_waiting(k) || !late(k));
        self.judge
            .expect("done within eight turns a step", &begun, done);
        for k in 0..8 {
            if !self.is_waiting(k) {
                self.begun[k] = None;
            }
        }
    }

    /// The shape of job k, or any where it counts as empty.
    fn shape_of(&mut self, k: usize) -> Shape {
        let other = some_shape(self.random, self.most);
        shape_of(&self.jobs[k].head).unwrap_or(other)
    }

    /// Any shape, now and then one that is refused.
    fn some_shape(&mut self) -> Event {
        let mut shape = some_shape(self.random, self.most);
        match self.random.below(12) {
            0 => shape.checks[0] = self.random.pick(&[0, shape.columns as u16, 65]),
            1 => shape.exponent += self.random.pick(&[256, 65_536]),
            2 => shape.columns = self.random.pick(&[0, 1, 257]),
            3 => shape.checks = vec![1; self.random.pick(&[0, 9])],
            _ => {}
        }
        Event::new(Call::Shape(shape), NOTHING, Vec::new())
    }

    fn some_encode(&mut self, k: usize) -> Event {
        let shape = self.shape_of(k);
        let mut frame = some_encode(self.random, &shape);
        if self.random.once_in(3) {
            frame = malformed(self.random, &shape, &frame);
        }
        Event::new(Call::Encode, NOTHING, frame)
    }

    /// A damaged frame with declared cells, for a locate or a start; now and then one that is refused.
    fn some_frame(&mut self, k: usize, call: Call) -> Event {
        let shape = self.shape_of(k);
        let mut declared = some_cells(self.random, &shape);
        let sent = some_codeword(self.random, &shape, &declared);
        let left = shape.least_left(&declared);
        let count = self.random.below(shape.columns.min(left + 1) + 1);
        let mut frame = damaged(self.random, &shape, &sent, count);
        frame = refilled(self.random, &shape, &declared, &frame);
        match self.random.below(12) {
            0 => frame = malformed(self.random, &shape, &frame),
            1 => declared = bad_cells(self.random, &shape),
            _ => {}
        }
        Event::new(call, declared, frame)
    }

    /// The frame last lent, the same with a cell altered, or one that is malformed; any codeword where the
    /// last one was of another size.
    fn some_repair(&mut self, k: usize) -> Event {
        let shape = self.shape_of(k);
        let mut frame = match &self.lent[k] {
            Some(lent) if lent.frame.len() == shape.size() => lent.frame.clone(),
            _ => some_codeword(self.random, &shape, &NOTHING),
        };
        match self.random.below(8) {
            0 => frame = malformed(self.random, &shape, &frame),
            1 => {
                let place = self.random.below(frame.len());
                frame[place] = (frame[place] % 257 + 1) % 257;
            }
            _ => {}
        }
        Event::new(Call::Repair, NOTHING, frame)
    }

    /// A call of each kind that job k could have.
    fn one_of_each(&mut self, k: usize) -> [Event; 7] {
        [
            self.some_shape(),
            self.some_encode(k),
            self.some_frame(k, Call::Locate),
            self.some_repair(k),
            self.some_frame(k, Call::Start),
            Event::new(Call::Step, NOTHING, Vec::new()),
            Event::new(Call::Peek, NOTHING, Vec::new()),
        ]
    }

    /// A call on some job, or some turns. A call that drops what is unfinished is rare, so that most locates
    /// come to their end.
    fn some_event(&mut self) {
        let k = self.random.below(8);
        let keep = self.is_unfinished(k) && !self.random.once_in(6);
        let event = match self.random.below(26) {
            0..2 if !keep => self.some_shape(),
            2..4 => self.some_encode(k),
            4..6 if !keep => self.some_frame(k, Call::Locate),
            6..10 => self.some_repair(k),
            10..17 if !keep => self.some_frame(k, Call::Start),
            17..19 => Event::new(Call::Step, NOTHING, Vec::new()),
            19..21 => Event::new(Call::Peek, NOTHING, Vec::new()),
            _ => {
                for _ in 0..self.random.from_to(1, 6) {
                    self.turn();
                }
                return;
            }
        };
        self.call(k, &event);
    }

    /// Gives most jobs a shape.
    fn shape_most(&mut self) {
        for k in 0..8 {
            if !self.random.once_in(8) {
                let event = self.some_shape();
                self.call(k, &event);
            }
        }
    }

    /// Starts job k, with another shape half of the time: until a start is not refused and there are steps to
    /// make. One that is refused leaves what an earlier one began.
    fn start(&mut self, k: usize) {
        loop {
            if self.random.once_in(2) || shape_of(&self.jobs[k].head).is_none() {
                let shape = self.some_shape();
                self.call(k, &shape);
            }
            let event = self.some_frame(k, Call::Start);
            let said = self.call(k, &event);
            if said.refusal() == 0 && self.is_unfinished(k) {
                return;
            }
        }
    }

    /// Eight empty jobs of a dispatcher that held anything.
    fn empty(&mut self) {
        let jobs = &mut self.held.jobs;
        jobs.last = self.random.bits();
        (0..8).for_each(|k| jobs.set_job(k, &FILLED));
        self.eight.empty(jobs);
        self.compare_rest("empty", 8);
    }

    /// Each call on a number that is no job's, whatever is lent: refused by 33, with nothing changed.
    fn no_such_job(&mut self) {
        for number in [8, 9, 255, 1 << 32] {
            let k = self.random.below(8);
            for event in self.one_of_each(k) {
                let name = event.name();
                let (expected, mut got) = (Lent::new(&event.frame), Lent::new(&event.frame));
                self.held.declared = event.declared;
                self.expected.declared = event.declared;
                let said = event.among(self.eight, &mut self.held, number, got.contents());
                self.judge.answered(name, said.refusal());
                self.judge.compare(
                    &format!("{name} of no job"),
                    &(number, &event),
                    (event.refused(33), expected),
                    (said, got),
                );
                self.compare_rest("a call on no job", number);
            }
        }
    }

    /// A turn with nothing unfinished, which changes nothing.
    fn idle(&mut self) {
        let before = self.held.clone();
        let turned = self.turn();
        let answer = Answer::refused(33);
        self.judge
            .compare("an idle turn", &(), Turned { job: 8, answer }, turned);
        let same = before == self.held;
        self.judge.expect("what an idle turn leaves", &(), same);
    }

    /// A list of events, and turns until nothing is unfinished.
    fn list(&mut self) {
        self.empty();
        self.no_such_job();
        self.idle();
        self.shape_most();
        for _ in 0..300 {
            self.some_event();
        }
        self.no_such_job();
        while self.next().is_some() {
            self.turn();
        }
        self.idle();
    }

    /// A job is stepped while all others are unfinished in every turn, ended, dropped and started anew as
    /// they may be: each of its steps but the first takes eight turns.
    fn never_at_rest(&mut self) {
        self.shape_most();
        for _ in 0..self.random.below(20) {
            self.some_event();
        }
        let waiting = self.random.below(8);
        self.start(waiting);
        let steps = self.begun[waiting].expect("just started").steps;
        let last = self.expected.jobs.last as usize;
        let to_first = (waiting + 7 - last) % 8 + 1;
        let turns = to_first + 8 * (steps - 1);
        for made in 1..=turns {
            for k in (0..8).filter(|&k| k != waiting) {
                if !self.is_unfinished(k) || self.random.once_in(40) {
                    self.start(k);
                }
            }
            self.turn();
            self.judge.compare(
                "the turn that ends the wait",
                &(waiting, last, steps, made),
                made < turns,
                self.is_waiting(waiting),
            );
        }
    }

    /// A step by call is no service.
    fn steps_by_call(&mut self) {
        for k in 0..2 {
            let shape = Shape {
                columns: 4,
                checks: vec![3, 3],
                exponent: 1,
            };
            let frame = some_legal_frame(self.random, &shape);
            self.call(k, &Event::new(Call::Shape(shape), NOTHING, Vec::new()));
            self.call(k, &Event::new(Call::Start, NOTHING, frame));
        }
        for served in [0, 1, 0, 1] {
            let turned = self.turn();
            self.judge
                .compare("whom a turn serves", &(), served, turned.job);
            let other = Event::new(Call::Step, NOTHING, Vec::new());
            self.call(1 - served as usize, &other);
        }
    }

    /// Eight full frames: turn 4,096 ends the last of them.
    fn longest_wait(&mut self) {
        let shape = Shape {
            columns: 256,
            checks: vec![64; 8],
            exponent: 1,
        };
        for (k, count) in [0, 1, 2, 8, 16, 24, 31, 32].into_iter().enumerate() {
            let sent = some_legal_frame(self.random, &shape);
            let frame = damaged(self.random, &shape, &sent, count);
            let call = Call::Shape(shape.clone());
            self.call(k, &Event::new(call, NOTHING, Vec::new()));
            self.call(k, &Event::new(Call::Start, NOTHING, frame));
        }
        for made in 0..4096 {
            let turned = self.turn();
            let Answer {
                refusal,
                unfinished,
                ..
            } = turned.answer;
            self.judge.compare(
                "a turn of 4,096",
                &made,
                (made % 8, 0, u32::from(made < 4096 - 8), made < 4095),
                (turned.job, refusal, unfinished, self.is_waiting(7)),
            );
        }
        self.idle();
    }

    /// Any numbers in some of the jobs, and in who was served last. Whom a turn serves goes by the phases and
    /// by the remainder; each job answers as it would by itself.
    fn forged(&mut self) {
        self.shape_most();
        for _ in 0..self.random.below(60) {
            self.some_event();
        }
        for k in 0..8 {
            let shape = self.shape_of(k);
            let job = &mut self.jobs[k];
            for _ in 0..self.random.below(4) {
                forge(self.random, job, &shape);
                forge_arrays(self.random, job);
            }
            if self.random.once_in(4) {
                let random = &mut *self.random;
                job.counts.fill_with(|| random.bits() as u16);
                job.symbols.fill_with(|| random.bits() as u16);
                job.current.fill_with(|| random.bits() as u16);
            }
            if self.random.once_in(3) {
                job.head.phase = UNFINISHED;
            }
            self.expected.jobs.set_job(k, job);
        }
        let any = self.random.bits();
        let last = [7, 8, 255, 1 << 63, (1 << 63) + 5, u64::MAX, any];
        self.expected.jobs.last = self.random.pick(&last);
        self.held = self.expected.clone();
        self.passed_over = [0; 8];
        self.begun = [None; 8];
        for _ in 0..10 {
            self.turn();
        }
        self.no_such_job();
        for _ in 0..40 {
            self.some_event();
        }
    }
}
