//! Compares every call of the library, and what the program prints, with an independent
//! implementation, on many inputs that are the same in every run. With `--plain` the plain
//! implementation of the benchmarks takes the library's place, and the program is not run.
//! `tests/run` builds and runs it.

mod independent;
mod judge;
mod records;
mod trials;

use std::process::ExitCode;
use std::time::Instant;

use common::interface::Calls;
use judge::Judge;

fn plain() -> bool {
    std::env::args().nth(1).as_deref() == Some("--plain")
}

fn subject() -> Box<dyn Calls> {
    #[cfg(library)]
    if !plain() {
        return Box::new(common::interface::Library);
    }
    Box::new(plain::Plain)
}

type Trial = fn(&mut Judge);

const TRIALS: [(&str, Trial); 15] = [
    ("layout", trials::layout::run),
    ("prototypes", trials::prototypes::run),
    ("examples", trials::examples::run),
    ("vectors", trials::vectors::run),
    ("finder", trials::finder::run),
    ("search", trials::search::run),
    ("shapes", trials::shapes::run),
    ("frames", trials::frames::run),
    ("declared cells", trials::declared::run),
    ("exponents", trials::exponents::run),
    ("dead lines", trials::uniform::run),
    ("slices", trials::slices::run),
    ("forged jobs", trials::forged::run),
    ("lists of calls", trials::lists::run),
    ("eight jobs", trials::dispatcher::run),
];

fn main() -> ExitCode {
    let subject = subject();
    let mut judge = Judge::new(&*subject);
    let mut trials = TRIALS.to_vec();
    if !plain() {
        trials.push(("program", trials::program::run));
    }
    for (name, run) in trials {
        let start = Instant::now();
        run(&mut judge);
        println!("{name}: {:.1} s", start.elapsed().as_secs_f64());
    }
    ExitCode::from(u8::from(!judge.finish()))
}
