//! The archive's functions stand in `include/tomkhadi.h` with the parameters of the sources that they
//! are made from: their names, types and order. A C compiler does not look at names.

use crate::judge::Judge;

const HEADER: &str = include_str!("../../../include/tomkhadi.h");

const SOURCES: [&str; 4] = [
    include_str!("../../../crates/capi/src/find.rt"),
    include_str!("../../../crates/capi/src/roots.rt"),
    include_str!("../../../crates/capi/src/jobs.rt"),
    include_str!("../../../crates/capi/src/eight.rt"),
];

pub fn run(judge: &mut Judge) {
    judge.compare("the prototypes", &(), exported(), declared());
}

/// The prototypes that the exported functions ask for. The count after a slice goes by any name.
fn exported() -> Vec<String> {
    let functions = SOURCES
        .iter()
        .flat_map(|source| source.split("extern \"C\" fn ").skip(1));
    functions.map(prototype).collect()
}

fn prototype(function: &str) -> String {
    let (name, rest) = function.split_once('(').expect("parameters");
    let (parameters, rest) = rest.split_once(')').expect("their end");
    let result = match rest.trim_start().strip_prefix("-> ") {
        Some(result) => c_type(result.split_whitespace().next().expect("its type")),
        None => "void",
    };
    let mut written: Vec<String> = parameters.split(',').filter_map(parameter).collect();
    if written.is_empty() {
        written.push("void".to_string());
    }
    format!("{result} {name}({})", written.join(", "))
}

fn parameter(text: &str) -> Option<String> {
    let (name, of) = text.split_once(": ")?;
    let name = name.trim();
    let (constant, lent) = match (of.strip_prefix("&mut "), of.strip_prefix('&')) {
        (Some(lent), _) => ("", lent),
        (_, Some(lent)) => ("const ", lent),
        _ => return Some(format!("{} {name}", c_type(of))),
    };
    let Some(lent) = lent.strip_prefix('[') else {
        return Some(format!("{constant}{} *{name}", lent_type(lent)));
    };
    let lent = lent.strip_suffix(']').expect("the end of an array");
    // An array of arrays, `[of; inner]; outer`, lies in C as one.
    Some(match lent.rsplit_once("; ") {
        Some((part, outer)) => match part.strip_prefix('[').and_then(|p| p.strip_suffix(']')) {
            Some(part) => {
                let (of, inner) = part.split_once("; ").expect("the length of a part");
                format!("{constant}{} {name}[{outer} * {inner}]", lent_type(of))
            }
            None => format!("{constant}{} {name}[{outer}]", lent_type(part)),
        },
        None => format!("{constant}{} *{name}, size_t", lent_type(lent)),
    })
}

/// A `usize` in memory has 64 bits.
fn lent_type(of: &str) -> &str {
    match of {
        "usize" => "uint64_t",
        _ => c_type(of),
    }
}

fn c_type(of: &str) -> &str {
    match of {
        "u16" => "uint16_t",
        "u32" => "uint32_t",
        "u64" => "uint64_t",
        "usize" => "size_t",
        "CRegister" => "tomkhadi_register",
        "CColumns" => "tomkhadi_columns",
        "CHead" => "tomkhadi_head",
        "CShaped" => "tomkhadi_head_shaped",
        "CAnswer" => "tomkhadi_answer",
        "CAnswered" => "tomkhadi_head_answered",
        "CPeeked" => "tomkhadi_peek_answer",
        "CTurned" => "tomkhadi_turned",
        _ => panic!("a type that the header does not have: {of}"),
    }
}

/// The prototypes of the header, without the names of the counts after pointers.
fn declared() -> Vec<String> {
    let code: String = HEADER
        .split("/*")
        .map(|part| part.split_once("*/").map_or(part, |(_, code)| code))
        .collect();
    let words: Vec<&str> = code.split_whitespace().collect();
    words
        .join(" ")
        .split(';')
        .filter(|statement| statement.ends_with(')') && !statement.contains(['{', '=', '#', '&']))
        .map(|statement| {
            let (name, parameters) = statement.trim().split_once('(').expect("parameters");
            format!("{name}({}", without_counts(parameters))
        })
        .collect()
}

fn without_counts(parameters: &str) -> String {
    let mut after_pointer = false;
    let mut written = Vec::new();
    for parameter in parameters.trim_end_matches(')').split(", ") {
        let is_count = after_pointer && parameter.starts_with("size_t ");
        written.push(if is_count { "size_t" } else { parameter });
        after_pointer = parameter.contains('*') && !parameter.ends_with(']');
    }
    format!("{})", written.join(", "))
}
