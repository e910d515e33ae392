//! Times a turn of eight jobs beside a step of a job by itself, on the same frames in one run: one job
//! unfinished, which is the next in order or the one served last, and all eight, round and round.

use std::hint::black_box;

use common::interface::{Dispatcher, EightJobs, Job, Library, Slices};

use crate::cases::{Case, Step};
use crate::{Input, cases, timing};

/// A frame for each of eight jobs, all of one shape.
struct Eight {
    inputs: Vec<Input>,
    steps: usize,
}

impl Eight {
    fn new(case: &Case) -> Eight {
        let inputs: Vec<Input> = (0..8).map(|number| Input::new(case, number)).collect();
        let mut job = inputs[0].job;
        inputs[0].start(&mut job);
        let steps = inputs[0].step(&mut job);
        Eight { inputs, steps }
    }

    fn jobs(&self) -> Vec<Job> {
        self.inputs.iter().map(|input| input.job).collect()
    }

    fn dispatcher(&self) -> Box<Dispatcher> {
        let mut dispatcher = Box::new(Dispatcher::EMPTY);
        for (k, input) in self.inputs.iter().enumerate() {
            dispatcher.set_job(k, &input.job);
        }
        dispatcher
    }

    fn start_jobs(&self, jobs: &mut [Job]) {
        for (input, job) in self.inputs.iter().zip(jobs) {
            input.start(job);
        }
    }

    /// Starts the first so many jobs.
    fn start(&self, dispatcher: &mut Dispatcher, count: usize) {
        for (k, input) in self.inputs[..count].iter().enumerate() {
            let answer = EightJobs::start(&Library, dispatcher, k, &input.declared, &input.frame);
            assert_eq!((answer.refusal, answer.unfinished), (0, 1));
        }
    }

    /// The turns of so many jobs that are started.
    fn turn(&self, dispatcher: &mut Dispatcher, count: usize) {
        for _ in 0..count * self.steps {
            black_box(Library.turn(dispatcher));
        }
    }

    /// The turns of job 0, which each of them finds at once.
    fn turn_at_once(&self, dispatcher: &mut Dispatcher) {
        for _ in 0..self.steps {
            dispatcher.last = 7;
            black_box(Library.turn(dispatcher));
        }
    }

    fn step_round(&self, jobs: &mut [Job]) {
        for _ in 0..self.steps {
            for job in &mut *jobs {
                black_box(Slices::step(&Library, job));
            }
        }
    }

    /// As many turns as steps end all locates, and no fewer.
    fn check(&self) {
        let mut dispatcher = self.dispatcher();
        self.start(&mut dispatcher, 8);
        for _ in 0..8 * self.steps {
            let turned = Library.turn(&mut dispatcher);
            assert_eq!((turned.job < 8, turned.answer.refusal), (true, 0));
        }
        assert_eq!(Library.turn(&mut dispatcher).job, 8);
    }
}

/// Answers by how much a turn is longer than a step of the same frames.
fn measure(case: &Case) -> f64 {
    let eight = Eight::new(case);
    eight.check();
    let first = &eight.inputs[0];
    let [mut started, mut stepped] = [(); 2].map(|()| Box::new(first.job));
    let [mut d_started, mut d_next, mut d_last] = [(); 3].map(|()| eight.dispatcher());
    let [mut jobs_started, mut jobs_stepped] = [(); 2].map(|()| eight.jobs());
    let [mut all_started, mut all_turned] = [(); 2].map(|()| eight.dispatcher());
    let times = timing::medians(&mut [
        &mut || first.start(black_box(&mut started)),
        &mut || {
            first.start(black_box(&mut stepped));
            first.step(black_box(&mut stepped));
        },
        &mut || eight.start(black_box(&mut d_started), 1),
        &mut || {
            eight.start(black_box(&mut d_next), 1);
            eight.turn_at_once(black_box(&mut d_next));
        },
        &mut || {
            eight.start(black_box(&mut d_last), 1);
            eight.turn(black_box(&mut d_last), 1);
        },
        &mut || eight.start_jobs(black_box(&mut jobs_started)),
        &mut || {
            eight.start_jobs(black_box(&mut jobs_stepped));
            eight.step_round(black_box(&mut jobs_stepped));
        },
        &mut || eight.start(black_box(&mut all_started), 8),
        &mut || {
            eight.start(black_box(&mut all_turned), 8);
            eight.turn(black_box(&mut all_turned), 8);
        },
    ]);
    let each = |all: usize, start: usize| (times[all] - times[start]) / eight.steps as f64;
    let [step, next, last] = [each(1, 0), each(3, 2), each(4, 2)];
    let [step_of_8, turn_of_8] = [each(6, 5), each(8, 7)].map(|time| time / 8.0);
    let more = (next - step).max(last - step).max(turn_of_8 - step_of_8);
    println!(
        "{:<52}{:>7}{step:>9.1}{next:>9.1}{last:>9.1}{step_of_8:>11.1}{turn_of_8:>11.1}{more:>9.1}",
        case.name().replace("locate ", ""),
        eight.steps,
    );
    more
}

/// The full frames and the small ones, with nothing declared and the exponent 1.
pub fn print() {
    println!(
        "{:<52}{:>7}{:>9}{:>9}{:>9}{:>11}{:>11}{:>9}",
        "turns of eight jobs, nanoseconds",
        "steps",
        "step",
        "next",
        "last",
        "step of 8",
        "turn of 8",
        "more"
    );
    let locates = cases::all()
        .into_iter()
        .filter(|case| matches!(case, Case::Frame(Step::Locate, _)) && case.beside().is_none());
    // The first six, by the order of `cases::all`: three of the full frame and three of the small one.
    // Those with given columns damaged come after them.
    let most = locates
        .take(6)
        .map(|case| measure(&case))
        .fold(0.0, f64::max);
    println!("a turn takes at most {most:.1} ns more than a step");
}
