//! The lines that the program prints for a stream of records: what the calls answer, as text.

use std::fmt::Write;

use common::interface::NOTHING;

use crate::independent::frames::columns_of;
use crate::judge::Judge;

/// The kind of a record and its fields, or nothing where it is bad before its fields are read.
fn fields(record: &[u8]) -> Option<(u16, Vec<u16>)> {
    let mut fields = record
        .chunks_exact(2)
        .map(|pair| u16::from_le_bytes([pair[0], pair[1]]));
    let kind = fields.next()?;
    record
        .len()
        .is_multiple_of(2)
        .then(|| (kind, fields.collect()))
}

fn register_line(judge: &mut Judge, body: &[u16]) -> Option<String> {
    let (&[p, count], rest) = body.split_first_chunk()?;
    let (lengths, symbols) = rest.split_at_checked(usize::from(count))?;
    let (register, taps) = judge.find(u32::from(p), lengths, symbols, 129);
    if register.refusal != 0 {
        return Some(format!("E {}", register.refusal));
    }
    let mut line = format!("R {} {}", register.length, register.alone);
    for tap in &taps[..=register.length as usize] {
        write!(line, " {tap}").expect("a string takes all");
    }
    Some(line)
}

/// Frames of records have check sums that begin at the exponent 1.
fn frame_line(judge: &mut Judge, body: &[u16]) -> Option<String> {
    let (&[rows, columns], rest) = body.split_first_chunk()?;
    let (checks, frame) = rest.split_at_checked(usize::from(rows))?;
    let mut job = judge.empty();
    let refusal = judge.shape(&mut job, usize::from(columns), checks, 1);
    if refusal != 0 {
        return Some(format!("E {refusal}"));
    }
    let answer = judge.locate(&mut job, &NOTHING, frame);
    if answer.refusal != 0 {
        return Some(format!("E {}", answer.refusal));
    }
    let mut line = format!("F {}", answer.count);
    for column in columns_of(&answer.marks) {
        write!(line, " {column}").expect("a string takes all");
    }
    Some(line)
}

fn line(judge: &mut Judge, record: &[u8]) -> String {
    let line = match fields(record) {
        Some((1, body)) => register_line(judge, &body),
        Some((2, body)) => frame_line(judge, &body),
        _ => None,
    };
    line.unwrap_or("E 9".to_string())
}

/// A line for each record. The input may end inside the last one.
pub fn lines(judge: &mut Judge, mut input: &[u8]) -> String {
    let mut lines = String::new();
    while !input.is_empty() {
        let record = input.split_first_chunk().and_then(|(&length, rest)| {
            rest.split_at_checked(usize::from(u16::from_le_bytes(length)))
        });
        let (line, rest) = match record {
            Some((record, rest)) => (line(judge, record), rest),
            None => ("E 9".to_string(), &[][..]),
        };
        lines += &line;
        lines.push('\n');
        input = rest;
    }
    lines
}
