//! The second program: `patchwalk` and run cases by documents 01 and 02 alone, and by other means than
//! the library (sets of triples, exact geometry, a plain search, doubles as whole numbers), so that the two can be held
//! side by side.
//!
//! `second patchwalk < record` prints the walk of a patch record; `second runcases < stream` prints each case's line.

mod cases;
mod geometry;
mod intake;
mod outline;
mod patch;
mod records;
mod surface;
mod walk;

use patch::{Patch, Refusal};
use std::collections::BTreeSet;
use std::io::{self, Read, Write};
use surface::Surface;

const TABLE_ROWS: usize = 4096;
const STREAM_MOST: usize = 524_288;

fn row_line(row: usize, surface: &Surface) -> String {
    let used: BTreeSet<_> = surface.iter().flatten().collect();
    let triples: String = surface.iter().map(|[i, j, k]| format!(" {i}{j}{k}")).collect();
    format!("{row} {} {}{triples}\n", surface.len(), used.len())
}

fn patchwalk(record: &[u8]) -> Result<String, Refusal> {
    let patch = Patch::accept(&records::read_patch(record)?)?;
    let walk = walk::whole_walk(&patch, TABLE_ROWS);
    let area: i128 = walk.rows[0].iter().map(|&t| patch.turn(t).abs()).sum();
    let (circuits, border) = (patch.circuits.len(), patch.sides());
    let mut text = format!("patch {} circuits {circuits} border {border} area2 {area}\n", patch.len());
    text.extend(walk.rows.iter().enumerate().map(|(row, surface)| row_line(row, surface)));
    let end = if walk.full { "full" } else { "done" };
    Ok(text + &format!("{end} {} {}\n", walk.rows.len(), walk.steps))
}

fn runcases(stream: &str) -> String {
    stream.lines().filter_map(cases::answer).map(|line| line + "\n").collect()
}

fn main() -> io::Result<()> {
    let mut input = Vec::new();
    io::stdin().read_to_end(&mut input)?;
    let output = match std::env::args().nth(1).as_deref() {
        Some("patchwalk") => patchwalk(&input).unwrap_or_else(|refusal| format!("refused {}\n", refusal as u8)),
        Some("runcases") if input.len() > STREAM_MOST => "stream too long\n".into(),
        Some("runcases") => runcases(std::str::from_utf8(&input).expect("a stream of text")),
        _ => {
            eprintln!("usage: second patchwalk < record, or second runcases < stream");
            std::process::exit(2);
        }
    };
    io::stdout().write_all(output.as_bytes())
}
