//! The records of `tests/vectors`, made by an implementation outside this project, and copied here
//! so that the tests need nothing but this repository: what the calls answer to each is the line
//! that stands beside it, in the last of the files that the requests gave.

use crate::judge::Judge;
use crate::records::lines;

pub const VECTORS: [(&[u8], &str); 3] = [
    (
        include_bytes!("../../vectors/01-examples.in"),
        include_str!("../../vectors/01-examples.out6"),
    ),
    (
        include_bytes!("../../vectors/02-finder-edges.in"),
        include_str!("../../vectors/02-finder-edges.out"),
    ),
    (
        include_bytes!("../../vectors/03-frame-edges.in"),
        include_str!("../../vectors/03-frame-edges.out6"),
    ),
];

pub fn run(judge: &mut Judge) {
    for (records, expected) in VECTORS {
        let got = lines(judge, records);
        judge.compare("the lines of records", &records, expected, &got);
    }
}
