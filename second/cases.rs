//! Run cases: reads one case from its line, makes the call, and gives the line to print.

use crate::intake;
use crate::outline;
use crate::patch::{Patch, Refusal};
use crate::records;
use crate::walk::{self, Progress, Record};
use std::fmt::{Debug, Display};
use std::str::FromStr;

/// The arguments of a case that are still to be read.
struct Arguments<'a>(&'a str);

impl Arguments<'_> {
    fn number<T: FromStr<Err: Debug>>(&mut self) -> T {
        let text = self.0.trim_start();
        let (number, rest) = text.split_at(text.find(' ').unwrap_or(text.len()));
        self.0 = rest;
        number.parse().expect("a number of its range")
    }

    fn run<T: FromStr<Err: Debug> + Clone>(&mut self) -> Vec<T> {
        let text = self.0.trim_start().strip_prefix('[').expect("a run in brackets");
        let (inside, rest) = text.split_once(']').expect("a run in brackets");
        self.0 = rest;
        inside.split_whitespace().flat_map(repeated).collect()
    }

    fn words(&mut self) -> [u64; 2] {
        [self.number(), self.number()]
    }

    fn patch(&mut self) -> Result<Patch, Refusal> {
        Patch::accept(&self.run::<i32>())
    }
}

/// `v`, or `v*k` as k times v.
fn repeated<T: FromStr<Err: Debug> + Clone>(item: &str) -> Vec<T> {
    let (value, times) = item.split_once('*').unwrap_or((item, "1"));
    let value = value.parse().expect("a number of its range");
    vec![value; times.parse().expect("a number of times")]
}

fn shown<T: Display>(run: &[T]) -> String {
    let items: Vec<_> = run.iter().map(T::to_string).collect();
    format!("[{}]", items.join(" "))
}

/// A table, with each longest run of equal words as one `v*k`.
fn shown_table(table: &[u64]) -> String {
    let item = |run: &[u64]| if run.len() == 1 { run[0].to_string() } else { format!("{}*{}", run[0], run.len()) };
    let items: Vec<_> = table.chunk_by(|a, b| a == b).map(item).collect();
    shown(&items)
}

/// A run with zeros after it up to a fixed length, or cut off there.
fn padded<T: Clone + From<bool>>(mut run: Vec<T>, length: usize) -> Vec<T> {
    run.resize(length, false.into());
    run
}

fn refused(refusal: Refusal) -> String {
    format!("refused {}", refusal as u8)
}

/// The line of a case; none for a remark or an empty line.
pub fn answer(case: &str) -> Option<String> {
    if case.is_empty() || case.starts_with('#') {
        return None;
    }
    let (call, rest) = case.split_once(' ').expect("a call and its arguments");
    let mut arguments = Arguments(rest);
    let answer = match call {
        "start" | "step" | "run" => walk_answer(call, &mut arguments),
        "write_patch" | "write_surface" => write_answer(call, &mut arguments),
        "chains" => chains_answer(&mut arguments),
        "south_part" | "north_part" => part_answer(call, &mut arguments),
        "cocircuit" => cocircuit_answer(&mut arguments),
        "read_patch" => coordinates_answer(records::read_patch(&arguments.run::<u8>())),
        "take" | "take_runs" => coordinates_answer(taken(call, &mut arguments)),
        _ => plain_answer(call, &mut arguments).unwrap_or_else(refused),
    };
    assert!(arguments.0.is_empty(), "more arguments than the call takes: {case}");
    Some(format!("{call} {answer}"))
}

/// The calls that are lent nothing to change. All arguments are read before the first refusal is passed on.
fn plain_answer(call: &str, arguments: &mut Arguments) -> Result<String, Refusal> {
    let patch = arguments.patch();
    match call {
        "accept" => patch.map(|_| "accepted".into()),
        "border" => Ok(format!("count {}", patch?.sides())),
        "circuits" => Ok(format!("count {}", patch?.circuits.len())),
        "orientation" | "double_area" => {
            let numbers = [arguments.number(), arguments.number(), arguments.number()];
            turn_answer(call, &patch?, numbers)
        }
        "circuit" => circuit_answer(arguments.number(), &patch?),
        "test" => {
            let words = arguments.words();
            patch?.surface(words).map(|_| "accepted".into())
        }
        _ => list_answer(call, arguments, patch),
    }
}

/// The calls that answer a list.
fn list_answer(call: &str, arguments: &mut Arguments, patch: Result<Patch, Refusal>) -> Result<String, Refusal> {
    let (list, patch) = match call {
        "placing" => patch.and_then(|patch| Ok((patch.placing(), patch))),
        "flip" => {
            let (words, circuit) = (arguments.words(), arguments.number());
            patch.and_then(|patch| Ok((patch.flip(&patch.surface(words)?, circuit)?, patch)))
        }
        "read_surface" => {
            let record = arguments.run::<u8>();
            patch.and_then(|patch| Ok((records::read_surface(&patch, &record)?, patch)))
        }
        _ => panic!("no such call: {call}"),
    }?;
    let [low, high] = patch.words(&list);
    Ok(format!("list {low} {high}"))
}

fn turn_answer(call: &str, patch: &Patch, [a, b, c]: [u64; 3]) -> Result<String, Refusal> {
    let turn = patch.turn([patch.shot(a)?, patch.shot(b)?, patch.shot(c)?]);
    Ok(format!("area {}", if call == "orientation" { turn } else { turn.abs() }))
}

fn circuit_answer(number: u64, patch: &Patch) -> Result<String, Refusal> {
    let circuit = patch.circuit(number)?;
    let digits = |side: &[usize]| side.iter().map(usize::to_string).collect::<String>();
    Ok(format!("sides {} {}", digits(&circuit.plus), digits(&circuit.minus)))
}

fn cocircuit_answer(arguments: &mut Arguments) -> String {
    let patch = arguments.patch();
    let (i, j) = (arguments.number(), arguments.number());
    let (answer, signs) = match patch.and_then(|patch| patch.cocircuit(i, j)) {
        Ok(signs) => ("accepted".into(), signs),
        Err(refusal) => (refused(refusal), vec![]),
    };
    format!("{answer} {}", shown(&padded(signs, 10)))
}

fn taken(call: &str, arguments: &mut Arguments) -> Result<Vec<i32>, Refusal> {
    let (edition, units, values) = (arguments.number(), arguments.run::<u8>(), arguments.run::<u64>());
    if call == "take" {
        intake::take(edition, &padded(units, 10), &padded(values, 20), arguments.number())
    } else {
        intake::take_runs(edition, &units, &values)
    }
}

fn coordinates_answer(given: Result<Vec<i32>, Refusal>) -> String {
    let (answer, coordinates) = match given {
        Ok(coordinates) => (format!("shots {}", coordinates.len() / 2), coordinates),
        Err(refusal) => (refused(refusal), vec![]),
    };
    format!("{answer} {}", shown(&padded(coordinates, 20)))
}

fn write_answer(call: &str, arguments: &mut Arguments) -> String {
    let coordinates = arguments.run::<i32>();
    let list = if call == "write_surface" { Some(arguments.words()) } else { None };
    let mut buffer = arguments.run::<u8>();
    let written = match list {
        Some(list) => Patch::accept(&coordinates).and_then(|patch| records::write_surface(&patch, list, &mut buffer)),
        None => records::write_patch(&coordinates, &mut buffer),
    };
    let answer = written.map_or_else(refused, |count| format!("bytes {count}"));
    format!("{answer} {}", shown(&buffer))
}

fn chains_answer(arguments: &mut Arguments) -> String {
    let patch = arguments.patch();
    let (mut south, mut north) = (arguments.run::<u8>(), arguments.run::<u8>());
    let lengths = patch.and_then(|patch| outline::write_chains(&patch, [&mut south, &mut north]));
    let answer = lengths.map_or_else(refused, |[south, north]| format!("lengths {south} {north}"));
    format!("{answer} {} {}", shown(&south), shown(&north))
}

fn part_answer(call: &str, arguments: &mut Arguments) -> String {
    let buffers = [arguments.run::<u8>(), arguments.run::<u8>()];
    let lengths: [u64; 2] = [arguments.number(), arguments.number()];
    let which = usize::from(call == "north_part");
    format!("bytes {}", shown(outline::part(&buffers[which], lengths[which])))
}

fn walk_answer(call: &str, arguments: &mut Arguments) -> String {
    let patch = arguments.patch();
    let list = if call == "start" { arguments.words() } else { [0; 2] };
    let mut table = arguments.run::<u64>();
    let mut record = Record { rows: arguments.number(), step: arguments.number() };
    let b = if call == "run" { arguments.number() } else { 0 };
    let progress = |progress| if progress == Progress::Made { "made" } else { "done" };
    let result = patch.and_then(|patch| match call {
        "start" => walk::start(&patch, list, &mut table, &mut record).map(|()| "started"),
        "step" => walk::step(&patch, &mut table, &mut record).map(progress),
        _ => walk::run(&patch, &mut table, &mut record, b).map(progress),
    });
    let answer = result.map_or_else(refused, str::to_string);
    format!("{answer} rows {} step {} {}", record.rows, record.step, shown_table(&table))
}
