//! The walk over flips: start, step and run over a lent table, and the whole walk that `patchwalk` prints.

use crate::patch::{Patch, Refusal};
use crate::surface::{Surface, Words};
use std::collections::HashSet;

const MOST_ROWS: usize = 65_535;

/// The walk record.
pub struct Record {
    pub rows: u64,
    pub step: u64,
}

#[derive(Clone, Copy, PartialEq)]
pub enum Progress {
    Made,
    Done,
}

fn capacity(table: &[u64]) -> usize {
    MOST_ROWS.min(table.len() / 2)
}

pub fn start(patch: &Patch, list: Words, table: &mut [u64], record: &mut Record) -> Result<(), Refusal> {
    patch.surface(list)?;
    if capacity(table) == 0 {
        return Err(Refusal::NoRoom);
    }
    table[..2].copy_from_slice(&list);
    *record = Record { rows: 1, step: 0 };
    Ok(())
}

/// The steps of the whole walk over the rows in use, or 15 where the record is impossible.
fn last_step(patch: &Patch, table: &[u64], record: &Record) -> Result<u64, Refusal> {
    if record.rows == 0 || record.rows > capacity(table) as u64 {
        return Err(Refusal::WalkRecord);
    }
    let last = record.rows * patch.circuits.len() as u64;
    if record.step > last {
        Err(Refusal::WalkRecord)
    } else {
        Ok(last)
    }
}

pub fn step(patch: &Patch, table: &mut [u64], record: &mut Record) -> Result<Progress, Refusal> {
    if record.step == last_step(patch, table, record)? {
        return Ok(Progress::Done);
    }
    let count = patch.circuits.len() as u64;
    let row = (record.step / count) as usize;
    let surface = patch.surface([table[2 * row], table[2 * row + 1]])?;
    match patch.flip(&surface, record.step % count) {
        Ok(result) => keep(patch.words(&result), table, record)?,
        Err(refusal) => assert_eq!(refusal, Refusal::NoFlip),
    }
    record.step += 1;
    Ok(Progress::Made)
}

/// Writes a result that equals no row in use at the next row.
fn keep(result: Words, table: &mut [u64], record: &mut Record) -> Result<(), Refusal> {
    let rows = record.rows as usize;
    if table.chunks(2).take(rows).any(|row| row == result) {
        return Ok(());
    }
    if rows == capacity(table) {
        return Err(Refusal::NoRoom);
    }
    table[2 * rows..][..2].copy_from_slice(&result);
    record.rows += 1;
    Ok(())
}

pub fn run(patch: &Patch, table: &mut [u64], record: &mut Record, b: u64) -> Result<Progress, Refusal> {
    last_step(patch, table, record)?;
    for _ in 0..b {
        if step(patch, table, record)? == Progress::Done {
            return Ok(Progress::Done);
        }
    }
    Ok(Progress::Made)
}

/// A walk from the placing surface: what it found, and whether that is all.
pub struct Walk {
    pub rows: Vec<Surface>,
    pub steps: usize,
    pub full: bool,
}

/// A breadth-first search: the rows are the queue as well, and `known` holds the same surfaces.
pub fn whole_walk(patch: &Patch, capacity: usize) -> Walk {
    let first = patch.placing();
    let mut known = HashSet::from([first.clone()]);
    let mut walk = Walk { rows: vec![first], steps: 0, full: false };
    let mut at = 0;
    while let Some(surface) = walk.rows.get(at).cloned() {
        for circuit in 0..patch.circuits.len() {
            match patch.flip(&surface, circuit as u64) {
                Ok(result) if known.contains(&result) => {}
                Ok(_) if walk.rows.len() == capacity => return Walk { full: true, ..walk },
                Ok(result) => {
                    known.insert(result.clone());
                    walk.rows.push(result);
                }
                Err(refusal) => assert_eq!(refusal, Refusal::NoFlip),
            }
            walk.steps += 1;
        }
        at += 1;
    }
    walk
}
