//! The program on streams of records: good ones, bad ones, random bytes, streams cut short, and many
//! records. It answers a line for each, whether the bytes come from a pipe, all at once or a few at a
//! time, or from a file, whose reads fill all the room that they are lent. It does not keep a line back
//! while it waits for the next record, and goes on after 100,000 of them that come one by one.

use std::fs::{self, File};
use std::io::{BufRead, BufReader, Read, Write};
use std::process::{Child, Command, Stdio};
use std::thread;
use std::time::Duration;

use common::interface::NOTHING;
use common::random::Random;

use crate::independent::frames::Shape;
use crate::judge::Judge;
use crate::records::lines;
use crate::trials::vectors::VECTORS;
use crate::trials::{damaged, malformed, some_codeword, some_shape};

/// The program, which is stopped after ten minutes.
fn started(input: Stdio) -> Child {
    Command::new("timeout")
        .args(["600", "crates/tomkhadi/out/tomkhadi"])
        .stdin(input)
        .stdout(Stdio::piped())
        .spawn()
        .expect("the program starts")
}

/// What the program prints from here on, and whether it ended well.
fn ended(mut program: Child) -> (bool, String) {
    let mut printed = String::new();
    let mut stdout = program.stdout.take().expect("it has an output");
    stdout.read_to_string(&mut printed).expect("it prints text");
    let status = program.wait().expect("it ends");
    (status.success(), printed)
}

/// What the program prints, and whether it ended well.
fn answers(pieces: Vec<Vec<u8>>) -> (bool, String) {
    let mut program = started(Stdio::piped());
    let mut stdin = program.stdin.take().expect("it has an input");
    let writer = thread::spawn(move || {
        for piece in &pieces {
            stdin.write_all(piece).expect("it reads all of its input");
            if pieces.len() > 1 {
                thread::sleep(Duration::from_micros(20));
            }
        }
    });
    let answers = ended(program);
    writer.join().expect("the input is written");
    answers
}

fn at_once(judge: &mut Judge, input: &[u8]) {
    let expected = lines(judge, input);
    let got = answers(vec![input.to_vec()]);
    judge.compare("the program", &input, (true, expected), got);
}

fn from_file(judge: &mut Judge, input: &[u8]) {
    let expected = lines(judge, input);
    let path = "target/input";
    fs::write(path, input).expect("the input is kept");
    let file = File::open(path).expect("the input is there");
    let got = ended(started(file.into()));
    judge.compare("the program on a file", &(), (true, expected), got);
}

fn slowly(judge: &mut Judge, random: &mut Random, mut input: &[u8]) {
    let expected = lines(judge, input);
    let mut pieces = Vec::new();
    while !input.is_empty() {
        let (piece, rest) = input.split_at(random.from_to(1, 7).min(input.len()));
        pieces.push(piece.to_vec());
        input = rest;
    }
    let got = answers(pieces);
    judge.compare("the program on pieces", &(), (true, expected), got);
}

/// Each record is sent when the line of the one before it has come.
fn in_turn(judge: &mut Judge, records: &[Vec<u8>]) {
    let mut program = started(Stdio::piped());
    let mut stdin = program.stdin.take().expect("it has an input");
    let mut stdout = BufReader::new(program.stdout.take().expect("it has an output"));
    for record in records {
        let expected = lines(judge, record);
        let mut line = String::new();
        stdin.write_all(record).expect("it reads a record");
        stdout.read_line(&mut line).expect("it prints a line");
        judge.compare("the program in turn", record, expected, line);
    }
    drop(stdin);
    program.wait().expect("it ends");
}

/// So many records without a kind, each sent when the line of the one before it has come, so that the
/// program makes a turn for each. It does not stop before the input ends.
fn many_turns(judge: &mut Judge, count: usize) {
    let mut program = started(Stdio::piped());
    let mut stdin = program.stdin.take().expect("it has an input");
    let mut stdout = BufReader::new(program.stdout.take().expect("it has an output"));
    let mut line = String::new();
    let mut goes_on = || {
        line.clear();
        stdin.write_all(&[0, 0]).is_ok() && stdout.read_line(&mut line).is_ok() && line == "E 9\n"
    };
    let answered = (0..count).take_while(|_| goes_on()).count();
    drop(stdin);
    program.wait().expect("it ends");
    judge.compare("the program in many turns", &(), count, answered);
}

/// The record of the fields, with the length that they have.
fn record(fields: &[u16]) -> Vec<u8> {
    let bytes = fields.iter().flat_map(|field| field.to_le_bytes());
    let length = 2 * fields.len() as u16;
    length.to_le_bytes().into_iter().chain(bytes).collect()
}

fn some_sequences(random: &mut Random) -> Vec<u8> {
    let p = random.pick(&[2, 3, 257, 65521, 4, 1]);
    let lengths: Vec<u16> = (0..random.from_to(1, 4))
        .map(|_| random.from_to(0, 20) as u16)
        .collect();
    let order = random.below(6);
    let symbols = random.generated(p, &lengths, order);
    let head = [1, p as u16, lengths.len() as u16];
    record(&[&head, &lengths[..], &symbols].concat())
}

/// A record of a frame, whose check sums begin at the exponent 1.
fn some_frame(random: &mut Random) -> Vec<u8> {
    let shape = Shape {
        exponent: 1,
        ..some_shape(random, 30)
    };
    let sent = some_codeword(random, &shape, &NOTHING);
    let count = random.below(shape.least_checks() + 1);
    let mut frame = damaged(random, &shape, &sent, count.min(shape.columns));
    if random.once_in(4) {
        frame = malformed(random, &shape, &sent);
    }
    let head = [2, shape.checks.len() as u16, shape.columns as u16];
    record(&[&head, &shape.checks[..], &frame].concat())
}

/// A record whose length is that of random bytes, odd or even, with a kind that may be known.
fn some_bytes(random: &mut Random, most: usize) -> Vec<u8> {
    let length = random.below(most + 1);
    let mut bytes: Vec<u8> = (0..length).map(|_| random.bits() as u8).collect();
    if let Some(kind) = bytes.first_chunk_mut() {
        *kind = [random.below(4) as u8, 0];
    }
    [&(length as u16).to_le_bytes()[..], &bytes].concat()
}

/// Good and bad records, none cut short, of so many bytes or more.
fn long_stream(random: &mut Random, least: usize) -> Vec<u8> {
    let mut stream = Vec::new();
    while stream.len() < least {
        stream.extend(match random.below(8) {
            0..4 => some_sequences(random),
            4..7 => some_frame(random),
            _ => some_bytes(random, 12),
        });
    }
    stream
}

fn some_stream(random: &mut Random) -> Vec<u8> {
    let mut stream = Vec::new();
    for _ in 0..random.from_to(1, 40) {
        stream.extend(match random.below(8) {
            0..3 => some_sequences(random),
            3..6 => some_frame(random),
            6 => some_bytes(random, 12),
            _ => some_bytes(random, 65535),
        });
    }
    for _ in 0..random.below(3) {
        let place = random.below(stream.len());
        stream[place] = random.bits() as u8;
    }
    if random.once_in(2) {
        stream.truncate(random.below(stream.len()));
    }
    stream
}

pub fn run(judge: &mut Judge) {
    let mut random = Random::new(8);
    let vectors: Vec<u8> = VECTORS
        .iter()
        .flat_map(|&(records, _)| records)
        .copied()
        .collect();
    slowly(judge, &mut random, &vectors);
    for size in 0..5 {
        at_once(judge, &vectors[..size]);
    }
    // 2,500,000 records without a kind, and 200,000 good ones
    at_once(judge, &[0; 5_000_000]);
    at_once(judge, &record(&[1, 2, 1, 1, 1]).repeat(200_000));
    at_once(judge, &[0xff; 200_000]);
    from_file(judge, &[0; 700_000]);
    from_file(judge, &long_stream(&mut random, 600_000));
    let long = long_stream(&mut random, 300_000);
    from_file(judge, &long[..long.len() - 1]);
    for _ in 0..100 {
        let stream = some_stream(&mut random);
        at_once(judge, &stream);
    }
    let stream = some_stream(&mut random);
    slowly(judge, &mut random, &stream[..stream.len().min(20_000)]);
    let records: Vec<Vec<u8>> = (0..20).map(|_| some_frame(&mut random)).collect();
    in_turn(judge, &records);
    many_turns(judge, 100_001);
}
