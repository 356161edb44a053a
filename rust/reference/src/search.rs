//! Whether a legal wiring exists, found by looking at all wirings and not by the rule of fit.
//!
//! # How many columns are enough
//!
//! Wires may wander over any column, so the search needs a limit that loses nothing. Let L and R be
//! the least and the greatest column of all 2n pads (top pads moved by d). Claim: if a legal wiring
//! exists, one exists within columns L - m to R + m, where m is half the number of tracks between
//! track 0 and track s, rounded down. (These are tracks 1 to s-1; for s = 0 and s = 1 there are none.)
//!
//! First cut every loop out of every wire, so that no wire meets a point twice. This only takes
//! points away, and never a wire's first or last. Now look right of column R. No pad is there. Points
//! of track 0 are first points and points of track s last points of wires, all of them pads: so no
//! wire has a point of these two tracks there either. Every wire that goes there comes back: it
//! leaves by a step (R, t) to (R+1, t) and returns by a step (R+1, u) to (R, u), with t and u on
//! tracks 1 to s-1. Call the part between an excursion and t, u its doors. Wires don't meet
//! themselves or each other, so all doors of all excursions differ, and as each excursion has two of
//! them there are at most m excursions. All excursions lie in the half strip right of R, on tracks 1
//! to s-1, with their doors on its edge. Disjoint curves in it can't interlace: never is one door of
//! one strictly between the doors of another whose other door is outside. So of two excursions either
//! one's doors enclose the other's, or they lie side by side. Redraw each: straight right from one
//! door to column R + k, along that column, and straight back to the other door, where k is 1 for an
//! excursion that encloses no other, and otherwise one more than the greatest k among those it
//! encloses. What is drawn lies between its own doors' tracks, so on tracks 1 to s-1 as before. Side
//! by side they keep to tracks of their own; of two nested ones the outer has its straight parts on
//! tracks outside the inner's and its upright part further right. They stay disjoint, nothing at or
//! left of R has changed, and k never passes the number of excursions, which is at most m. The same
//! on the left of L. This proves the claim.
//!
//! Both searches below take one column more than that on each side.

use std::collections::HashSet;

use crate::wires::Point;

/// The columns that are certainly enough, by the argument above and one more on each side.
pub fn enough_columns(a: &[i32], b: &[i32], s: usize, d: i32) -> (i32, i32) {
    let tracks_between = (1..s).len();
    let margin = (tracks_between / 2) as i32 + 1;
    let pads = || a.iter().copied().chain(b.iter().map(|&column| column + d));
    (
        pads().min().expect("at least one pair") - margin,
        pads().max().expect("at least one pair") + margin,
    )
}

/// At s = 0 the bottom pad is on track s and so is the wire's last point: the wire is that point.
fn fits_without_tracks(a: &[i32], b: &[i32], d: i32) -> bool {
    (0..a.len()).all(|i| a[i] == b[i] + d)
}

/// Whether a legal wiring exists, column after column over all states.
///
/// Think of the steps of all wires as edges of the grid, each with the number of its wire. Then at
/// each point of track 0: a bottom pad has exactly one edge, up, with its own wire's number, and
/// every other point has none. For a point of track 0 is a wire's first, its bottom pad; an edge
/// along the track would have two such points, and one of them wouldn't be the first. At each point
/// of tracks 1 to s-1 there are no edges, or exactly two with the same number. An edge up to track s
/// stands at top pad i alone, and bears number i, for only a wire's last point is on track s.
///
/// Every wiring without loops gives such edges. Conversely, given such edges, follow them from
/// bottom pad i: each point met has one way on, all with number i, until the only other end that
/// bears number i, top pad i. What is then left over is closed loops, which are thrown away. So
/// such edges exist exactly when a legal wiring does.
///
/// The state between two columns is the edge numbers on tracks 0 to s-1 (0 for no edge, i + 1 for
/// wire i); the search holds the set of all states that can be reached. It looks at every way to
/// choose edges, so it is exhaustive and doesn't use that wires keep their order.
pub fn exists_wiring(a: &[i32], b: &[i32], s: usize, d: i32) -> bool {
    exists_wiring_within(a, b, s, d, enough_columns(a, b, s, d))
}

/// The same within the columns given, both included.
pub fn exists_wiring_within(a: &[i32], b: &[i32], s: usize, d: i32, columns: (i32, i32)) -> bool {
    if s == 0 {
        return fits_without_tracks(a, b, d);
    }
    let label_of = |found: Option<usize>| found.map_or(0, |i| i as u8 + 1);
    let nothing = vec![0u8; s];
    let (first, last) = columns;
    let mut states: HashSet<Vec<u8>> = HashSet::from([nothing.clone()]);
    for column in first..=last {
        let here = ColumnOfPoints {
            wires: a.len() as u8,
            bottom: label_of(a.iter().position(|&pad| pad == column)),
            top: label_of(b.iter().position(|&pad| pad + d == column)),
        };
        let mut next = HashSet::new();
        for left in &states {
            here.extend(left, 0, &mut Vec::new(), &mut next);
        }
        states = next;
    }
    states.contains(&nothing)
}

/// One column of grid points: how many wires there are, and which bottom and top pad stand in it
/// (0 for none, i + 1 for pad i).
struct ColumnOfPoints {
    wires: u8,
    bottom: u8,
    top: u8,
}

impl ColumnOfPoints {
    /// Chooses, from track 0 upwards, the edge to the right and the edge up at every point.
    /// `below` is the edge from the track beneath, `right` the edges to the right chosen so far.
    fn extend(&self, left: &[u8], below: u8, right: &mut Vec<u8>, next: &mut HashSet<Vec<u8>>) {
        let (t, s) = (right.len(), left.len());
        if t == s {
            if below == self.top {
                next.insert(right.clone());
            }
            return;
        }
        for to_right in 0..=self.wires {
            for up in 0..=self.wires {
                if self.point_is_right(t, [left[t], below, to_right, up]) {
                    right.push(to_right);
                    self.extend(left, up, right, next);
                    right.pop();
                }
            }
        }
    }

    /// The rule for the edges at one point: to the left, down, to the right, up.
    fn point_is_right(&self, track: usize, edges: [u8; 4]) -> bool {
        if track == 0 {
            return edges == [0, 0, 0, self.bottom];
        }
        let there: Vec<u8> = edges.into_iter().filter(|&edge| edge != 0).collect();
        there.is_empty() || (there.len() == 2 && there[0] == there[1])
    }
}

/// Finds a legal wiring by plain backtracking: wire after wire, every path without loops. Only for
/// very small jumpers; it is there to hold [`exists_wiring`] to account.
pub fn find_wiring(a: &[i32], b: &[i32], s: usize, d: i32) -> Option<Vec<Vec<Point>>> {
    if s == 0 {
        return fits_without_tracks(a, b, d).then(|| a.iter().map(|&pad| vec![(pad, 0)]).collect());
    }
    let (first, last) = enough_columns(a, b, s, d);
    let mut search = Backtracking {
        a,
        tops: b.iter().map(|&pad| pad + d).collect(),
        s: s as i32,
        first,
        last,
        taken: HashSet::new(),
        wires: Vec::new(),
    };
    search.next_wire().then_some(search.wires)
}

struct Backtracking<'r> {
    a: &'r [i32],
    tops: Vec<i32>,
    s: i32,
    first: i32,
    last: i32,
    /// The points between track 0 and track s that wires have. On those two tracks wires have their
    /// own pads only, which all differ.
    taken: HashSet<Point>,
    wires: Vec<Vec<Point>>,
}

impl Backtracking<'_> {
    fn next_wire(&mut self) -> bool {
        let i = self.wires.len();
        if i == self.a.len() {
            return true;
        }
        self.go_on(vec![(self.a[i], 0)])
    }

    /// Tries every way on from the last point of the path of the wire now being laid: up to its top
    /// pad, or to a point above track 0 and below track s.
    fn go_on(&mut self, path: Vec<Point>) -> bool {
        let i = self.wires.len();
        let (column, track) = *path.last().expect("a path has points");
        if track + 1 == self.s && column == self.tops[i] {
            let mut whole = path.clone();
            whole.push((column, self.s));
            self.wires.push(whole);
            if self.next_wire() {
                return true;
            }
            self.wires.pop();
        }
        for (across, along) in [(0, 1), (1, 0), (-1, 0), (0, -1)] {
            let (column, track) = (column + across, track + along);
            let inside = self.first <= column && column <= self.last && 0 < track && track < self.s;
            if inside && self.taken.insert((column, track)) {
                let mut longer = path.clone();
                longer.push((column, track));
                if self.go_on(longer) {
                    return true;
                }
                self.taken.remove(&(column, track));
            }
        }
        false
    }
}
