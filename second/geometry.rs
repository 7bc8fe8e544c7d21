//! Exact plane geometry: orientation, and whether two triangles cross.
//!
//! Points and lines are homogeneous triples of whole numbers, so that the point where two lines meet needs no
//! division. Coordinates are at most 10^6 in size: a line has numbers below 2^42, a meeting point below 2^64, and
//! the value of a line at a meeting point is below 2^90.

/// A point (x/w, y/w) as [x, y, w] with w > 0, or a line ax + by + cw = 0 as [a, b, c].
pub type Homogeneous = [i128; 3];

/// The line through two points, or the point where two lines meet.
fn join(p: Homogeneous, q: Homogeneous) -> Homogeneous {
    [p[1] * q[2] - p[2] * q[1], p[2] * q[0] - p[0] * q[2], p[0] * q[1] - p[1] * q[0]]
}

/// The value of a line at a point; its sign says on which side the point lies.
fn value(line: Homogeneous, p: Homogeneous) -> i128 {
    line.iter().zip(p).map(|(l, x)| l * x).sum()
}

/// (bx-ax)(cy-ay) - (by-ay)(cx-ax) for points with w = 1.
pub fn turn(a: Homogeneous, b: Homogeneous, c: Homogeneous) -> i128 {
    value(join(a, b), c)
}

/// Whether some two of the signs are opposite.
pub fn opposed(signs: &[i128]) -> bool {
    signs.iter().any(|&s| s > 0) && signs.iter().any(|&s| s < 0)
}

/// Whether p, on the line of a and b or not, lies in the box that a and b span.
fn between(a: Homogeneous, b: Homogeneous, p: Homogeneous) -> bool {
    (0..2).all(|i| {
        let side = |end: Homogeneous| (p[i] * end[2] - end[i] * p[2]).signum();
        side(a) * side(b) <= 0
    })
}

/// Whether p lies in the closed hull of at most three points; three must not be on one line.
fn in_hull(hull: &[Homogeneous], p: Homogeneous) -> bool {
    match *hull {
        [a] => join(a, p) == [0; 3],
        [a, b] => turn(a, b, p) == 0 && between(a, b, p),
        [a, b, c] => !opposed(&[turn(a, b, p), turn(b, c, p), turn(c, a, p)]),
        _ => false,
    }
}

/// Where two lines meet in one point, that point with w > 0.
fn meeting(l: Homogeneous, m: Homogeneous) -> Option<Homogeneous> {
    let p = join(l, m);
    (p[2] != 0).then(|| p.map(|v| v * p[2].signum()))
}

fn sides(t: &[Homogeneous; 3]) -> [Homogeneous; 3] {
    [join(t[0], t[1]), join(t[1], t[2]), join(t[2], t[0])]
}

/// Whether conv S ∩ conv T is more than conv (S ∩ T), for two triangles that are not flat.
///
/// This is document 01's crossing. A point of both hulls outside conv (S ∩ T) is a weighted mean of S and another one
/// of T; their difference is a dependence with its plus part in S and its minus part in T, and it holds a circuit
/// split in the same way. Conversely the sides of such a circuit have a common point, inside the hull of each side; S
/// and T write it in one way only, so were it in conv (S ∩ T), both sides would lie in S, which is independent.
///
/// conv S ∩ conv T is the hull of its corners, and at each corner two of the six side lines meet. So it is enough to
/// look at those meeting points. A corner may be a shot in the middle of a side, or the end of a side that overlaps
/// another along a line: the shot's own two sides meet there.
pub fn cross(s: &[Homogeneous; 3], t: &[Homogeneous; 3]) -> bool {
    let shared: Vec<_> = s.iter().copied().filter(|p| t.contains(p)).collect();
    let lines = [sides(s), sides(t)].concat();
    let in_both_only = |p| in_hull(s, p) && in_hull(t, p) && !in_hull(&shared, p);
    (0..6).any(|i| (0..i).any(|j| meeting(lines[i], lines[j]).is_some_and(in_both_only)))
}
