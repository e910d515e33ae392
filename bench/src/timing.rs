//! Times of calls, in nanoseconds.

use std::time::{Duration, Instant};

/// Samples are short, so that on a busy machine most of them are not interrupted and the median is
/// that of such.
const SAMPLES: usize = 201;
const SAMPLE_TIME: Duration = Duration::from_micros(100);

/// How often each of many inputs is called: once in each pass over all of them, so that a machine that is
/// busy for a while does not slow all of its calls.
const PASSES: usize = 12;

/// The times over many inputs of a call that comes after those of all the others.
pub struct Fresh {
    pub median: f64,
    pub worst: f64,
}

/// The time of one of `rounds` calls.
fn sample(rounds: u32, work: &mut dyn FnMut()) -> Duration {
    let start = Instant::now();
    for _ in 0..rounds {
        work();
    }
    start.elapsed() / rounds
}

fn nanoseconds(time: Duration) -> f64 {
    time.as_secs_f64() * 1e9
}

/// How many calls take about the time of a sample. The calls made here warm the caches too.
fn rounds(work: &mut dyn FnMut()) -> u32 {
    let mut rounds = 1;
    while (0..5).all(|_| sample(rounds, work) * rounds < SAMPLE_TIME) {
        rounds *= 2;
    }
    rounds
}

/// The median times of a call by each implementation, which take turns.
pub fn medians(works: &mut [&mut dyn FnMut()]) -> Vec<f64> {
    let rounds: Vec<u32> = works.iter_mut().map(|work| rounds(*work)).collect();
    let mut samples = vec![Vec::new(); works.len()];
    for _ in 0..SAMPLES {
        for ((work, &rounds), samples) in works.iter_mut().zip(&rounds).zip(&mut samples) {
            samples.push(sample(rounds, *work));
        }
    }
    let median = |times: &mut Vec<Duration>| {
        times.sort();
        nanoseconds(times[SAMPLES / 2])
    };
    samples.iter_mut().map(median).collect()
}

/// The median and the longest time of a call over these inputs. All the others are called between two
/// calls of one, so that the processor has forgotten most of its branches. Each call is timed by itself,
/// and of the times of an input the least is taken, so that an interrupt of the machine is not the call's.
/// What reading the clock takes is not counted.
pub fn fresh<T>(inputs: &mut [T], call: impl Fn(&mut T)) -> Fresh {
    let mut least = vec![Duration::MAX; inputs.len()];
    for _ in 0..PASSES {
        for (input, least) in inputs.iter_mut().zip(&mut least) {
            *least = sample(1, &mut || call(input)).min(*least);
        }
    }
    least.sort();
    let clock = (0..1000).map(|_| sample(1, &mut || {})).min();
    let [median, worst] = [least.len() / 2, least.len() - 1]
        .map(|place| nanoseconds(least[place]) - nanoseconds(clock.unwrap()));
    Fresh { median, worst }
}
