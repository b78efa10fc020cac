//! Single parts of the run by the crate's own code, for timing: all that a part needs is made ready before.

use crate::core::solver::Solver;
use crate::geom::x_segment::XSegment;
use crate::int::point::IntPoint;
use crate::oracle::{as_given, filled, turned, Segment};
use crate::segm::merge::ShapeSegmentsMerge;
use crate::segm::sort::ShapeSegmentsSort;
use crate::split::{crossed, solver::SplitSolver};
use crate::{Kind, Row};

/// A list of segments, as it was given and as a part leaves it.
pub struct Parts {
    given: Vec<Segment>,
    segments: Vec<Segment>,
    split: SplitSolver<i32>,
}

impl Parts {
    pub fn new(rows: &[Row]) -> Self {
        let given: Vec<Segment> = rows.iter().map(|row| as_given(row, false)).collect();
        Parts { segments: given.clone(), given, split: SplitSolver::new() }
    }

    /// The list as it was given.
    pub fn ready(&mut self) {
        self.segments.clone_from(&self.given);
    }

    pub fn sort(&mut self) -> usize {
        self.segments.sort_by_ab(false);
        self.segments.len()
    }

    /// How many are left.
    pub fn merge(&mut self) -> usize {
        self.segments.merge_if_needed_with_store(&mut ());
        self.segments.len()
    }

    /// How many marks there are.
    pub fn look(&mut self, room: usize) -> usize {
        self.split.look(&self.segments, room).map_or(0, |()| self.split.marks())
    }

    /// How many bytes there are.
    pub fn sweep(&mut self, fill: u32, rule: u32) -> usize {
        filled(&self.segments, fill, rule, &Solver::own()).map_or(0, |bytes| bytes.len())
    }
}

/// A whole run from the turned segments on, with all the room it asks for: how many bytes there are.
pub fn run(rows: &[Row], fill: u32, rule: u32) -> usize {
    let mut segments: Vec<Segment> = rows.iter().map(|row| turned(row, false)).collect();
    let all = usize::MAX;
    let solver = Solver::new(all, all, all, 64);
    SplitSolver::new().split_segments_with_store(&mut segments, &solver, &mut ());
    filled(&segments, fill, rule, &solver).map_or(0, |bytes| bytes.len())
}

/// What is told of a pair: the answer of document 01; kind 0 nothing, 1 Pure, 2 TargetEnd, 3 OtherEnd, 4 Overlay; the point;
/// whether it was rounded; an Overlay's mask.
#[derive(Clone, Copy, Default)]
pub struct Told {
    pub answer: u64,
    pub kind: u64,
    pub x: i64,
    pub y: i64,
    pub rounded: u64,
    pub mask: u64,
}

/// How two segments cross: target a, b, other a, b. Around the crate's own code what document 01 asks first, which the crate leaves to its
/// caller: 3 off the grid, then 4 without length. A call, as the library is.
#[inline(never)]
pub fn cross(pair: &[i32; 8]) -> Told {
    if !pair.iter().all(|c| (-(1 << 30)..1 << 30).contains(c)) {
        return Told { answer: 3, ..Told::default() };
    }
    let [target, other] = [0, 4].map(|k| {
        let point = |k: usize| IntPoint::new(pair[k], pair[k + 1]);
        XSegment { a: point(k), b: point(k + 2) }
    });
    if target.a == target.b || other.a == other.b {
        return Told { answer: 4, ..Told::default() };
    }
    let Some((kind, point, rounded)) = crossed(&target, &other) else {
        return Told::default();
    };
    let (kind, mask) = match kind {
        Kind::Pure => (1, 0),
        Kind::TargetEnd => (2, 0),
        Kind::OtherEnd => (3, 0),
        Kind::Collinear(mask) => (4, mask.into()),
    };
    Told { answer: 0, kind, x: point.x.into(), y: point.y.into(), rounded: rounded.into(), mask }
}
