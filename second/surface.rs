//! Lists and surfaces as sets of triples: the test, the placing surface, and flips.

use crate::patch::{Circuit, Patch, Refusal, Triple};
use std::collections::BTreeSet;

pub type Surface = BTreeSet<Triple>;

/// What completes a piece to the triples of a list.
type Link = BTreeSet<Vec<usize>>;

/// The outer form of a list: low word, high word.
pub type Words = [u64; 2];

fn edges([i, j, k]: Triple) -> [[usize; 2]; 3] {
    [[i, j], [i, k], [j, k]]
}

/// The triple of some shots, in order.
fn triple(shots: &[usize]) -> Triple {
    let mut triple: Triple = shots.try_into().expect("three shots");
    triple.sort();
    triple
}

/// The triples of the surface that have this edge.
fn around(surface: &Surface, edge: [usize; 2]) -> impl Iterator<Item = &Triple> {
    surface.iter().filter(move |&&t| edges(t).contains(&edge))
}

fn link(surface: &Surface, piece: &[usize]) -> Link {
    let holders = surface.iter().filter(|t| piece.iter().all(|shot| t.contains(shot)));
    holders.map(|t| t.iter().copied().filter(|shot| !piece.contains(shot)).collect()).collect()
}

/// The common link of the pieces, where the surface supports them.
fn support(surface: &Surface, pieces: &[Vec<usize>]) -> Option<Link> {
    let first = link(surface, &pieces[0]);
    let supported = !first.is_empty() && pieces[1..].iter().all(|piece| link(surface, piece) == first);
    supported.then_some(first)
}

/// Each piece joined with each member of the link.
fn joined<'a>(pieces: &'a [Vec<usize>], link: &'a Link) -> impl Iterator<Item = Triple> + 'a {
    pieces.iter().flat_map(move |piece| link.iter().map(move |member| triple(&[&piece[..], &member[..]].concat())))
}

/// The flip along a circuit, where there is one.
fn exchange(surface: &Surface, circuit: &Circuit) -> Option<Surface> {
    let (plus, minus) = (&circuit.plus_pieces, &circuit.minus_pieces);
    let (out, into, link) = match support(surface, plus) {
        Some(link) => (plus, minus, link),
        None => (minus, plus, support(surface, minus)?),
    };
    let mut result = surface.clone();
    for old in joined(out, &link) {
        result.remove(&old);
    }
    result.extend(joined(into, &link));
    Some(result)
}

impl Patch {
    /// The test of a list whose numbers are shots.
    pub fn test(&self, list: &Surface) -> Result<(), Refusal> {
        if list.iter().any(|&t| self.flat(t)) {
            return Err(Refusal::Form);
        }
        if list.is_empty() {
            return Err(Refusal::EmptyList);
        }
        let ranks: Vec<_> = list.iter().map(|&t| self.rank(t)).collect();
        if ranks.iter().any(|&s| ranks.iter().any(|&t| self.cross(s, t))) {
            return Err(Refusal::Crossing);
        }
        let open = |edge| around(list, edge).count() < 2 && !self.border().contains(&edge);
        if list.iter().any(|&t| edges(t).into_iter().any(open)) {
            return Err(Refusal::OpenEdge);
        }
        Ok(())
    }

    /// The surface that two words give.
    pub fn surface(&self, words: Words) -> Result<Surface, Refusal> {
        let ranks: Vec<_> = (0..128).filter(|r| words[r / 64] >> (r % 64) & 1 == 1).collect();
        if ranks.last().is_some_and(|&r| r >= self.triples().len()) {
            return Err(Refusal::Form);
        }
        let list = ranks.into_iter().map(|r| self.triples()[r]).collect();
        self.test(&list).map(|()| list)
    }

    pub fn words(&self, surface: &Surface) -> Words {
        let mut words = [0; 2];
        for r in surface.iter().map(|&t| self.rank(t)) {
            words[r / 64] |= 1 << (r % 64);
        }
        words
    }

    pub fn placing(&self) -> Surface {
        let k = (2..self.len()).find(|&k| !self.flat([0, 1, k])).expect("the shots are not on one line");
        let mut surface = Surface::from([[0, 1, k]]);
        for shot in (2..self.len()).filter(|&shot| shot != k) {
            let visible: Vec<_> = self.outer(&surface).filter(|&(edge, third)| self.sees(shot, edge, third)).collect();
            surface.extend(visible.iter().map(|&([i, j], _)| triple(&[i, j, shot])));
        }
        self.checked(surface)
    }

    /// The edges that belong to exactly one triple, each with that triple's third shot.
    fn outer<'a>(&self, surface: &'a Surface) -> impl Iterator<Item = ([usize; 2], usize)> + 'a {
        let all = surface.iter().flat_map(|&[i, j, k]| [([i, j], k), ([i, k], j), ([j, k], i)]);
        all.filter(|&(edge, _)| around(surface, edge).count() == 1)
    }

    fn sees(&self, shot: usize, [i, j]: [usize; 2], third: usize) -> bool {
        self.turn([i, j, shot]).signum() * self.turn([i, j, third]).signum() < 0
    }

    /// The flip of a tested surface along a circuit.
    pub fn flip(&self, surface: &Surface, circuit: u64) -> Result<Surface, Refusal> {
        exchange(surface, self.circuit(circuit)?).map(|result| self.checked(result)).ok_or(Refusal::NoFlip)
    }

    /// Request E9 says that every result is a triangulation. Nothing here proves it, so each one is tested.
    fn checked(&self, result: Surface) -> Surface {
        assert_eq!(self.test(&result), Ok(()), "no triangulation: {result:?}");
        result
    }
}
