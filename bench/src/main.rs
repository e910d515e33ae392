//! Times the library's calls, the same calls in plain Rust and, for one sequence, FLINT, on the same
//! inputs in one run, and measures the stack that the library uses. With `--plain-only` the plain
//! implementation takes the library's place. `bench/run` builds and runs it.

mod calls;
mod cases;
#[cfg(flint)]
mod flint;
#[cfg(library)]
mod stack;
mod timing;

use std::hint::black_box;

use calls::Work;
use cases::{Beside, Case};
use common::interface::{Calls, Job};
use plain::Plain;
use timing::Fresh;

/// The inputs that are drawn of each case. The medians are those of the first, called over and over; the
/// fresh times and the most stack are over all.
const INPUTS: u64 = 200;

/// What is in the library's columns. The stack is that of calls in C.
struct Subject {
    calls: Box<dyn Calls>,
    stack: Option<fn(&mut [Work]) -> usize>,
}

/// The figures of a case, with times in nanoseconds.
struct Figures {
    plain: f64,
    library: f64,
    fresh: Fresh,
    stack: Option<usize>,
    flint: Option<f64>,
    /// The time of the library over its own for the call beside.
    to_beside: Option<(Beside, f64)>,
}

/// The times of FLINT where the call is of one sequence, if FLINT is there.
#[cfg(flint)]
fn flint_time(work: &Work) -> Option<f64> {
    let calls::Call::Find {
        p,
        lengths,
        symbols,
    } = &work.call
    else {
        return None;
    };
    if lengths.len() != 1 {
        return None;
    }
    let flint = flint::Flint::new(*p);
    let (mut taps, mut expected) = (vec![0; 129], vec![0; 129]);
    let register = Plain.find(*p, lengths, symbols, &mut expected);
    assert_eq!(
        (flint.find(symbols, &mut taps), &taps),
        (register, &expected),
        "FLINT"
    );
    let time = timing::medians(&mut [&mut || {
        black_box(flint.find(black_box(symbols), &mut taps));
    }]);
    Some(time[0])
}

#[cfg(not(flint))]
fn flint_time(_: &Work) -> Option<f64> {
    None
}

/// The answers to the input are the same, and no refusals.
fn check(work: &Work, library: &dyn Calls, name: &str) {
    let (mut ours, mut theirs) = (work.clone(), work.clone());
    let outcome = theirs.run(&Plain);
    assert_eq!(outcome.refusal, 0, "{name}");
    assert_eq!(
        (ours.run(library), ours.lent),
        (outcome, theirs.lent),
        "{name}"
    );
}

fn measure(case: &Case, subject: &Subject) -> Figures {
    let library = &*subject.calls;
    let mut works: Vec<Work> = (0..INPUTS).map(|number| case.draw(number)).collect();
    for work in &works {
        check(work, library, &case.name());
    }
    let beside = case.beside();
    let other = beside.map_or(*case, |(_, other)| other);
    // All three are drawn, so that they lie in memory alike.
    let [mut theirs, mut ours, mut others] = [case, case, &other].map(|case| case.draw(0));
    let times = timing::medians(&mut [
        &mut || {
            black_box(black_box(&mut theirs).run(&Plain));
        },
        &mut || {
            black_box(black_box(&mut ours).run(library));
        },
        &mut || {
            black_box(black_box(&mut others).run(library));
        },
    ]);
    let fresh = timing::fresh(&mut works, |work| {
        black_box(black_box(work).run(library));
    });
    Figures {
        plain: times[0],
        library: times[1],
        fresh,
        flint: flint_time(&works[0]),
        stack: subject.stack.map(|most_used| most_used(&mut works)),
        to_beside: beside.map(|(what, _)| (what, times[1] / times[2])),
    }
}

impl Figures {
    fn to_plain(&self) -> f64 {
        self.library / self.plain
    }

    fn print(&self, name: &str) {
        let Fresh { median, worst } = self.fresh;
        let [plain, library, fresh, worst] =
            [self.plain, self.library, median, worst].map(|time| time / 1e3);
        let stack = self
            .stack
            .map_or("-".to_string(), |bytes| bytes.to_string());
        print!(
            "{name:<66}{plain:>12.3}{library:>12.3}{:>8.2}",
            self.to_plain()
        );
        print!("{fresh:>12.3}{worst:>12.3}{stack:>8}");
        if let Some(time) = self.flint {
            print!("{:>12.3}", time / 1e3);
        }
        match self.to_beside {
            Some((Beside::NothingDeclared, ratio)) => print!("{ratio:>24.2}"),
            Some((Beside::ExponentOne, ratio)) => print!("{ratio:>36.2}"),
            None => {}
        }
        println!();
    }
}

fn subject() -> Subject {
    #[cfg(library)]
    if std::env::args().nth(1).as_deref() != Some("--plain-only") {
        return Subject {
            calls: Box::new(common::interface::Library),
            stack: Some(stack::most_used),
        };
    }
    println!("The plain implementation stands in for the library.");
    Subject {
        calls: Box::new(Plain),
        stack: None,
    }
}

/// The largest ratio so far, and the case that has it.
struct Worst(f64, String);

impl Worst {
    fn meet(&mut self, ratio: f64, name: &str) {
        if ratio > self.0 {
            *self = Worst(ratio, name.to_string());
        }
    }

    fn print(&self, what: &str) {
        println!("worst ratio{what}: {:.2} ({})", self.0, self.1);
    }
}

fn main() {
    let subject = subject();
    println!(
        "{:<66}{:>12}{:>12}{:>8}{:>12}{:>12}{:>8}{:>12}{:>12}{:>12}",
        "microseconds a call (median), bytes of stack",
        "plain",
        "library",
        "ratio",
        "fresh",
        "worst",
        "stack",
        "FLINT",
        "to none",
        "to exp. 1"
    );
    let [mut to_plain, mut to_none, mut to_one] = [(); 3].map(|_| Worst(0.0, String::new()));
    for case in cases::all() {
        let name = case.name();
        let figures = measure(&case, &subject);
        figures.print(&name);
        to_plain.meet(figures.to_plain(), &name);
        match figures.to_beside {
            Some((Beside::NothingDeclared, ratio)) => to_none.meet(ratio, &name),
            Some((Beside::ExponentOne, ratio)) => to_one.meet(ratio, &name),
            None => {}
        }
    }
    println!("a job has {} bytes", size_of::<Job>());
    to_none.print(" to the same call with nothing declared");
    to_one.print(" to the same call with exponent 1");
    to_plain.print("");
}
