//! Times locating in slices beside locating at once, on the same frames in one run: the share of a step
//! in a locate, a step, the longest single step, a start, and what the check sums cost; then turns of
//! eight jobs. `bench/run` builds and runs it.

#[allow(dead_code, reason = "the benchmark of the calls names the rest")]
mod calls;
#[allow(dead_code, reason = "the benchmark of the calls names the rest")]
mod cases;
#[allow(dead_code, reason = "the benchmark of the calls names the rest")]
mod timing;
mod turns;

use std::hint::black_box;
use std::time::Instant;

use calls::Call;
use cases::{Case, Step};
use common::interface::{Calls, Declared, Job, Library, Slices};

/// How often all steps of a frame are made, each timed by itself; of the times of a step the least counts,
/// so that an interrupt of the machine does not.
const PASSES: usize = 400;

/// A shaped job, and a frame to locate.
struct Input {
    job: Job,
    declared: Declared,
    frame: Vec<u16>,
}

impl Input {
    fn new(case: &Case, number: u64) -> Input {
        let work = case.draw(number);
        let Call::Locate {
            head,
            declared,
            frame,
        } = work.call
        else {
            unreachable!("only locates are drawn");
        };
        let mut job = work.lent.job;
        job.head = head;
        Input {
            job,
            declared: *declared,
            frame,
        }
    }

    fn start(&self, job: &mut Job) {
        job.head = self.job.head;
        let answer = Library.start(job, &self.declared, &self.frame);
        assert_eq!((answer.refusal, answer.unfinished), (0, 1));
    }

    /// All steps of a job that is started; answers how many there are.
    fn step(&self, job: &mut Job) -> usize {
        let mut steps = 1;
        while black_box(Library.step(job)).unfinished == 1 {
            steps += 1;
        }
        steps
    }

    /// The longest of the steps, in nanoseconds, less what reading the clock takes.
    fn longest(&self, steps: usize) -> f64 {
        let mut job = self.job;
        let mut least = vec![f64::MAX; steps];
        let mut clock = f64::MAX;
        for _ in 0..PASSES {
            self.start(&mut job);
            for least in &mut least {
                let start = Instant::now();
                black_box(Library.step(&mut job));
                *least = least.min(start.elapsed().as_secs_f64() * 1e9);
            }
            clock = clock.min(Instant::now().elapsed().as_secs_f64() * 1e9);
        }
        least.into_iter().fold(0.0, f64::max) - clock
    }
}

/// A repair of another frame's job tests the frame, sums it and compares: it is refused by 23, and so tells
/// what the check sums cost.
fn other_sums(input: &Input) -> Job {
    let mut job = input.job;
    Library.locate(&mut job, &input.declared, &input.frame);
    job.sums[0] ^= 1;
    job
}

fn measure(case: &Case) {
    let input = Input::new(case, 0);
    let mut jobs = [input.job; 4];
    input.start(&mut jobs[3]);
    let steps = input.step(&mut jobs[3]);
    let [at_once, started, sliced, _] = &mut jobs;
    let mut other = other_sums(&input);
    let mut frame = input.frame.clone();
    let times = timing::medians(&mut [
        &mut || {
            at_once.head = input.job.head;
            black_box(Library.locate(black_box(at_once), &input.declared, &input.frame));
        },
        &mut || input.start(black_box(started)),
        &mut || {
            input.start(black_box(sliced));
            input.step(black_box(sliced));
        },
        &mut || {
            black_box(Library.repair(black_box(&mut other), &mut frame));
        },
    ]);
    let [locate, start, all, sums] = times[..] else {
        unreachable!("four times");
    };
    let share = locate / steps as f64;
    println!(
        "{:<52}{steps:>7}{share:>9.1}{:>9.1}{:>9.1}{:>9.0}{start:>9.0}{sums:>9.0}{:>8.2}",
        case.name().replace("locate ", ""),
        (all - start) / steps as f64,
        1.5 * share + 30.0,
        input.longest(steps),
        start / sums
    );
}

fn main() {
    println!(
        "{:<52}{:>7}{:>9}{:>9}{:>9}{:>9}{:>9}{:>9}{:>8}",
        "locating in slices, nanoseconds",
        "steps",
        "share",
        "step",
        "allowed",
        "longest",
        "start",
        "sums",
        "ratio"
    );
    for case in cases::all() {
        if let Case::Frame(Step::Locate, _) = case {
            measure(&case);
        }
    }
    turns::print();
}
