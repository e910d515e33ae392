//! The cases. Each is a kind of call and draws its inputs, as many as are asked for.

use common::interface::{Calls, Declared, Job, NOTHING};
use common::random::Random;
use plain::Plain;

use crate::calls::{Call, Work};

const P: u32 = 65_521;

#[derive(Clone, Copy)]
pub enum Case {
    /// Sequences of these rising lengths: random, or of one register of the length given.
    Find(&'static [u16], Option<usize>),
    /// The columns of a full frame, with a register that names so many of them.
    Search(usize),
    Frame(Step, Frames),
}

#[derive(Clone, Copy)]
pub enum Step {
    Encode,
    Locate,
    Repair,
}

/// Frames of one shape with the same number of checks in all rows, the columns damaged in them, and how
/// many cells of each row are lost, which are declared.
#[derive(Clone, Copy)]
pub struct Frames {
    rows: usize,
    columns: usize,
    checks: u16,
    exponent: u32,
    hit: Hit,
    declared: usize,
}

/// So many columns anywhere, or these.
#[derive(Clone, Copy)]
enum Hit {
    Anywhere(usize),
    At(&'static [usize]),
}

/// What a call is compared with besides: the same call of the frame in which no cells are lost, or of
/// the same data, damage and declared cells at the exponent 1.
#[derive(Clone, Copy)]
pub enum Beside {
    NothingDeclared,
    ExponentOne,
}

const FULL: Frames = Frames {
    rows: 8,
    columns: 256,
    checks: 64,
    exponent: 1,
    hit: Hit::Anywhere(0),
    declared: 0,
};

const SMALL: Frames = Frames {
    rows: 2,
    columns: 32,
    checks: 8,
    ..FULL
};

pub fn all() -> Vec<Case> {
    let mut cases = Vec::new();
    let sequences: [&[u16]; 3] = [&[128], &[128; 8], &[100, 104, 108, 112, 116, 120, 124, 128]];
    for lengths in sequences {
        cases.extend([None, Some(8)].map(|order| Case::Find(lengths, order)));
    }
    cases.extend([2, 32].map(Case::Search));
    cases.extend(FULL.calls(&[0, 2, 32]));
    cases.extend(SMALL.calls(&[0, 2, 4]));
    cases.extend(FULL.received(&[0, 2, 24, 40], 8));
    for exponent in [2, 128] {
        let full = Frames { exponent, ..FULL };
        cases.extend(full.calls(&[0, 2, 32]));
        cases.extend(full.received(&[2, 24], 8));
    }
    let small = Frames {
        exponent: 128,
        ..SMALL
    };
    cases.extend(small.calls(&[0, 2, 4]));
    // The search for the columns ends with the block of the last of them.
    let first_to_last: [&[usize]; 6] = [&[0], &[128], &[255], &[0, 1], &[127, 128], &[254, 255]];
    for columns in first_to_last {
        let hit = Hit::At(columns);
        cases.push(Case::Frame(Step::Locate, Frames { hit, ..FULL }));
    }
    cases
}

impl Case {
    pub fn name(&self) -> String {
        match self {
            Case::Find(lengths, order) => {
                let (count, least, most) = (lengths.len(), lengths[0], lengths[lengths.len() - 1]);
                let range = if least < most {
                    format!("{least} to ")
                } else {
                    String::new()
                };
                let kind = match order {
                    None => "random".to_string(),
                    Some(order) => format!("of a register of length {order}"),
                };
                format!("find {count} x {range}{most}, {kind}")
            }
            Case::Search(named) => format!("search {} columns, {named} named", FULL.columns),
            Case::Frame(Step::Encode, frames) => format!("encode {}", frames.size()),
            Case::Frame(Step::Locate, frames) => {
                format!("locate {}, {}", frames.size(), frames.damage())
            }
            Case::Frame(Step::Repair, frames) => {
                format!("repair {}, {}", frames.size(), frames.damage())
            }
        }
    }

    pub fn beside(&self) -> Option<(Beside, Case)> {
        let &Case::Frame(step, frames) = self else {
            return None;
        };
        let (what, other) = if frames.exponent != 1 {
            let exponent = 1;
            (Beside::ExponentOne, Frames { exponent, ..frames })
        } else if frames.declared != 0 {
            let declared = 0;
            (Beside::NothingDeclared, Frames { declared, ..frames })
        } else {
            return None;
        };
        Some((what, Case::Frame(step, other)))
    }

    /// The input of this number. Those of a case and of the one beside it have the same data and damage.
    pub fn draw(&self, number: u64) -> Work {
        let random = &mut Random::new(number);
        match self {
            Case::Find(lengths, order) => draw_find(lengths, *order, random),
            Case::Search(named) => draw_search(*named, random),
            Case::Frame(Step::Encode, frames) => {
                Work::new(Call::Encode, frames.job(), frames.data(random))
            }
            Case::Frame(Step::Locate, frames) => frames.receive(random).locate(),
            Case::Frame(Step::Repair, frames) => frames.receive(random).repair(),
        }
    }
}

fn draw_find(lengths: &[u16], order: Option<usize>, random: &mut Random) -> Work {
    let symbols = match order {
        None => random.symbols(P, lengths.iter().copied().map(usize::from).sum()),
        Some(order) => random.generated(P, lengths, order),
    };
    let call = Call::Find {
        p: P,
        lengths: lengths.to_vec(),
        symbols,
    };
    Work::new(call, Job::EMPTY, vec![0; 129])
}

/// The taps are those that locate finds where these columns are damaged.
fn draw_search(named: usize, random: &mut Random) -> Work {
    let hit = Hit::Anywhere(named);
    let located = Frames { hit, ..FULL }.receive(random).located();
    let call = Call::Search {
        columns: FULL.columns,
        taps: located.taps[..=named].to_vec(),
    };
    Work::new(call, Job::EMPTY, Vec::new())
}

impl Frames {
    fn size(&self) -> String {
        let size = format!("{} x {}, {} checks", self.rows, self.columns, self.checks);
        match self.exponent {
            1 => size,
            exponent => format!("{size}, exponent {exponent}"),
        }
    }

    fn damage(&self) -> String {
        let hit = match self.hit {
            Hit::Anywhere(count) => format!("{count} damaged"),
            Hit::At(columns) => {
                let columns: Vec<String> = columns.iter().map(usize::to_string).collect();
                format!("damaged: {}", columns.join(" and "))
            }
        };
        match self.declared {
            0 => hit,
            count => format!("{hit}, {count} declared"),
        }
    }

    /// The locates, then the repairs, of frames with so many damaged columns, and with so many cells
    /// of each row declared.
    fn received(&self, damages: &[usize], declared: usize) -> Vec<Case> {
        let mut cases = Vec::new();
        for step in [Step::Locate, Step::Repair] {
            for &count in damages {
                let hit = Hit::Anywhere(count);
                let frames = Frames {
                    hit,
                    declared,
                    ..*self
                };
                cases.push(Case::Frame(step, frames));
            }
        }
        cases
    }

    /// Encode, and the locates and repairs with nothing declared.
    fn calls(&self, damages: &[usize]) -> Vec<Case> {
        let mut cases = vec![Case::Frame(Step::Encode, *self)];
        cases.extend(self.received(damages, 0));
        cases
    }

    fn job(&self) -> Job {
        let mut job = Job::EMPTY;
        let checks = vec![self.checks; self.rows];
        Plain.shape(&mut job, self.columns, &checks, self.exponent);
        job
    }

    fn data(&self, random: &mut Random) -> Vec<u16> {
        random.symbols(257, self.rows * self.columns)
    }

    fn receive(&self, random: &mut Random) -> Received {
        let job = self.job();
        let mut frame = self.data(random);
        Plain.encode(&job, &mut frame);
        let hit = match self.hit {
            Hit::Anywhere(count) => random.subset(self.columns, count),
            Hit::At(columns) => columns.to_vec(),
        };
        random.damage(&mut frame, self.columns, &hit);
        let declared = self.lose(random, &mut frame);
        Received {
            job,
            declared,
            frame,
        }
    }

    /// Loses cells of each row of the frame, and declares them.
    fn lose(&self, random: &mut Random, frame: &mut [u16]) -> Declared {
        let mut declared = NOTHING;
        for (h, row) in frame.chunks_mut(self.columns).enumerate() {
            for i in random.subset(self.columns, self.declared) {
                declared[4 * h + i / 64] |= 1 << (i % 64);
                row[i] = u16::MAX;
            }
        }
        declared
    }
}

/// A frame as it is received, and the job that has its shape.
struct Received {
    job: Job,
    declared: Declared,
    frame: Vec<u16>,
}

impl Received {
    /// The job once the frame is located.
    fn located(&self) -> Job {
        let mut job = self.job;
        Plain.locate(&mut job, &self.declared, &self.frame);
        job
    }

    fn locate(self) -> Work {
        let call = Call::Locate {
            head: self.job.head,
            declared: Box::new(self.declared),
            frame: self.frame,
        };
        Work::new(call, self.job, Vec::new())
    }

    fn repair(self) -> Work {
        let located = self.located();
        let call = Call::Repair {
            head: located.head,
            frame: self.frame.clone(),
        };
        Work::new(call, located, self.frame)
    }
}
