//! The two records, read and written.

use crate::patch::{Patch, Refusal, SHOT_COUNTS};
use crate::surface::{Surface, Words};

const VERSION: u8 = 1;

/// What follows the version byte, in a record of at least `least` bytes.
fn opened(record: &[u8], least: usize) -> Result<&[u8], Refusal> {
    if record.len() < least || usize::from(u16::from_be_bytes([record[0], record[1]])) != record.len() - 2 {
        return Err(Refusal::Length);
    }
    if record[2] == VERSION {
        Ok(&record[3..])
    } else {
        Err(Refusal::Version)
    }
}

/// The coordinates of an accepted patch.
pub fn read_patch(record: &[u8]) -> Result<Vec<i32>, Refusal> {
    let body = opened(record, 4)?;
    let n = usize::from(body[0]);
    if !SHOT_COUNTS.contains(&n) {
        return Err(Refusal::ShotCount);
    }
    if body.len() != 1 + 8 * n {
        return Err(Refusal::Length);
    }
    let number = |b: &[u8]| i32::from_be_bytes([b[0], b[1], b[2], b[3]]);
    let coordinates: Vec<_> = body[1..].chunks(4).map(number).collect();
    Patch::accept(&coordinates).map(|_| coordinates)
}

pub fn read_surface(patch: &Patch, record: &[u8]) -> Result<Surface, Refusal> {
    let body = opened(record, 5)?;
    if usize::from(body[0]) != patch.len() {
        return Err(Refusal::Form);
    }
    if body.len() != 2 + 3 * usize::from(body[1]) {
        return Err(Refusal::Length);
    }
    let triples: Vec<_> = body[2..].chunks(3).map(|t| [t[0].into(), t[1].into(), t[2].into()]).collect();
    let formed = triples.iter().all(|&[i, j, k]| i < j && j < k && k < patch.len());
    if !formed || triples.windows(2).any(|pair| pair[0] >= pair[1]) {
        return Err(Refusal::Form);
    }
    let list = triples.into_iter().collect();
    patch.test(&list).map(|()| list)
}

pub fn write_patch(coordinates: &[i32], buffer: &mut [u8]) -> Result<usize, Refusal> {
    let patch = Patch::accept(coordinates)?;
    let mut body = vec![VERSION, patch.len() as u8];
    body.extend(coordinates.iter().flat_map(|v| v.to_be_bytes()));
    write(&body, buffer)
}

pub fn write_surface(patch: &Patch, list: Words, buffer: &mut [u8]) -> Result<usize, Refusal> {
    let surface = patch.surface(list)?;
    let mut body = vec![VERSION, patch.len() as u8, surface.len() as u8];
    body.extend(surface.iter().flatten().map(|&shot| shot as u8));
    write(&body, buffer)
}

/// Puts the length and what follows it at the front of the buffer, and says how many bytes that took.
fn write(body: &[u8], buffer: &mut [u8]) -> Result<usize, Refusal> {
    let record = [&(body.len() as u16).to_be_bytes()[..], body].concat();
    buffer.get_mut(..record.len()).ok_or(Refusal::NoRoom)?.copy_from_slice(&record);
    Ok(record.len())
}
