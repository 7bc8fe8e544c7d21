//! A patch: its shots, pairs, outline, triples and circuits.

use crate::geometry::{cross, opposed, turn, Homogeneous};
use std::cell::OnceCell;
use std::collections::BTreeSet;

/// Document 01's refusals, each with its number; 14 is none since request E9, 16 is request E2's and 17 E13's.
#[derive(Clone, Copy, Debug, PartialEq)]
pub enum Refusal {
    ShotCount = 1,
    Range = 2,
    EqualShots = 3,
    OneLine = 4,
    Length = 5,
    Version = 6,
    Form = 7,
    Crossing = 8,
    OpenEdge = 9,
    EmptyList = 10,
    NoRoom = 11,
    CircuitNumber = 12,
    NoFlip = 13,
    WalkRecord = 15,
    NotFinite = 16,
    Edition = 17,
}

pub const SHOT_COUNTS: std::ops::RangeInclusive<usize> = 3..=10;
pub const LIMIT: i32 = 1_000_000;

/// Three shots in increasing order.
pub type Triple = [usize; 3];

/// A circuit's two sides, and what is left of it without one shot of that side, each in turn.
pub struct Circuit {
    pub plus: Vec<usize>,
    pub minus: Vec<usize>,
    pub plus_pieces: Vec<Vec<usize>>,
    pub minus_pieces: Vec<Vec<usize>>,
}

impl Circuit {
    /// Splits the shots z, in increasing order: `with_first` says which stand on the side of the first.
    fn new(z: &[usize], with_first: impl Fn(usize) -> bool) -> Circuit {
        let (plus, minus): (Vec<_>, Vec<_>) = z.iter().partition(|&&shot| with_first(shot));
        let without = |&shot: &usize| z.iter().copied().filter(|&other| other != shot).collect();
        let plus_pieces = plus.iter().map(without).collect();
        let minus_pieces = minus.iter().map(without).collect();
        Circuit { plus, minus, plus_pieces, minus_pieces }
    }
}

/// An accepted patch.
pub struct Patch {
    shots: Vec<Homogeneous>,
    /// In order of rank.
    triples: Vec<Triple>,
    pub circuits: Vec<Circuit>,
    border: BTreeSet<[usize; 2]>,
    crossings: OnceCell<Vec<bool>>,
}

impl Patch {
    pub fn accept(coordinates: &[i32]) -> Result<Patch, Refusal> {
        let n = coordinates.len() / 2;
        if coordinates.len() % 2 != 0 || !SHOT_COUNTS.contains(&n) {
            return Err(Refusal::ShotCount);
        }
        if coordinates.iter().any(|v| !(-LIMIT..=LIMIT).contains(v)) {
            return Err(Refusal::Range);
        }
        let shots: Vec<_> = coordinates.chunks(2).map(|p| [p[0].into(), p[1].into(), 1]).collect();
        if shots.iter().collect::<BTreeSet<_>>().len() < n {
            return Err(Refusal::EqualShots);
        }
        let mut patch = Patch {
            shots,
            triples: choose(n, 3).iter().map(|t| [t[0], t[1], t[2]]).collect(),
            circuits: Vec::new(),
            border: BTreeSet::new(),
            crossings: OnceCell::new(),
        };
        if patch.triples.iter().all(|&t| patch.flat(t)) {
            return Err(Refusal::OneLine);
        }
        let pairs = choose(n, 2).into_iter().map(|p| [p[0], p[1]]);
        patch.border = pairs.filter(|&[i, j]| !opposed(&patch.signs(i, j))).collect();
        patch.circuits = patch.threes().chain(patch.fours()).collect();
        Ok(patch)
    }

    pub fn len(&self) -> usize {
        self.shots.len()
    }

    /// The shot of that number, where there is one.
    pub fn shot(&self, number: u64) -> Result<usize, Refusal> {
        usize::try_from(number).ok().filter(|&i| i < self.len()).ok_or(Refusal::Form)
    }

    /// The circuit of that number, where there is one.
    pub fn circuit(&self, number: u64) -> Result<&Circuit, Refusal> {
        usize::try_from(number).ok().and_then(|z| self.circuits.get(z)).ok_or(Refusal::CircuitNumber)
    }

    /// The double area with its sign, as `orientation` answers it.
    pub fn turn(&self, [a, b, c]: [usize; 3]) -> i128 {
        turn(self.shots[a], self.shots[b], self.shots[c])
    }

    pub fn flat(&self, triple: Triple) -> bool {
        self.turn(triple) == 0
    }

    /// The signs of the cocircuit of i, j.
    fn signs(&self, i: usize, j: usize) -> Vec<i128> {
        (0..self.len()).map(|k| self.turn([i, j, k]).signum()).collect()
    }

    pub fn cocircuit(&self, i: u64, j: u64) -> Result<Vec<i128>, Refusal> {
        let (i, j) = (self.shot(i)?, self.shot(j)?);
        if i < j {
            Ok(self.signs(i, j))
        } else {
            Err(Refusal::Form)
        }
    }

    /// The border pairs, where an edge may be open.
    pub fn border(&self) -> &BTreeSet<[usize; 2]> {
        &self.border
    }

    /// The number of sides (request E1): the edges of the two chains.
    pub fn sides(&self) -> usize {
        self.chains().iter().map(|chain| chain.len() - 1).sum()
    }

    /// The strict convex hull as two chains from left to right (request E5): south, then north, each with both ends.
    pub fn chains(&self) -> [Vec<usize>; 2] {
        let mut along: Vec<_> = (0..self.len()).collect();
        along.sort_by_key(|&shot| self.shots[shot]);
        let south = self.left_turns(&along);
        along.reverse();
        let mut north = self.left_turns(&along);
        north.reverse();
        [south, north]
    }

    /// The chain from the first of these shots to the last that turns strictly left at each shot between.
    fn left_turns(&self, along: &[usize]) -> Vec<usize> {
        let mut chain = Vec::new();
        for &shot in along {
            while let [.., a, b] = chain[..] {
                if self.turn([a, b, shot]) > 0 {
                    break;
                }
                chain.pop();
            }
            chain.push(shot);
        }
        chain
    }

    pub fn triples(&self) -> &[Triple] {
        &self.triples
    }

    pub fn rank(&self, triple: Triple) -> usize {
        self.triples.binary_search(&triple).expect("a triple of the patch")
    }

    /// Whether the triples of two ranks cross; neither may be flat. All answers are worked out at the first question.
    pub fn cross(&self, s: usize, t: usize) -> bool {
        let count = self.triples.len();
        let corners = |r: usize| self.triples[r].map(|shot| self.shots[shot]);
        let all = || (0..count * count).map(|i| cross(&corners(i / count), &corners(i % count))).collect();
        self.crossings.get_or_init(all)[s * count + t]
    }

    fn threes(&self) -> impl Iterator<Item = Circuit> + '_ {
        self.triples.iter().filter(|&&t| self.flat(t)).map(|&[a, b, c]| {
            // Shots of one line stand in the order of their coordinates, which finds the middle one.
            let mut along = [a, b, c];
            along.sort_by_key(|&shot| self.shots[shot]);
            let middle = along[1];
            Circuit::new(&[a, b, c], |shot| (shot == middle) == (a == middle))
        })
    }

    fn fours(&self) -> impl Iterator<Item = Circuit> + '_ {
        choose(self.len(), 4).into_iter().filter_map(|z| {
            let [a, b, c, d] = [z[0], z[1], z[2], z[3]];
            // The two triples that count with a minus have two shots exchanged instead.
            let signs = [[b, c, d], [a, d, c], [a, b, d], [a, c, b]].map(|t| self.turn(t).signum());
            let sign = |shot: usize| signs[z.iter().position(|&s| s == shot).expect("a shot of z")];
            (!signs.contains(&0)).then(|| Circuit::new(&z, |shot| sign(shot) == sign(a)))
        })
    }
}

/// All sets of k of the numbers below n, in lexicographic order.
fn choose(n: usize, k: usize) -> Vec<Vec<usize>> {
    let mut sets = vec![vec![]];
    for _ in 0..k {
        let longer = |set: Vec<usize>| {
            let from = set.last().map_or(0, |last| last + 1);
            (from..n).map(move |next| [set.as_slice(), &[next]].concat())
        };
        sets = sets.into_iter().flat_map(longer).collect();
    }
    sets
}
