//! An overlay of polygons whose answers can be relied on.
//!
//! The edges of a service area, the *subject*, and of its exclusions, the *clip*, go in as segments with counts. They come out split
//! where they cross, each with a byte that says what lies on its two sides and whether the rule asked for keeps it. A list that
//! cannot be settled is refused with a reason that says what to mend.
//!
//! The work is done by the proved library that `./build-library cabi` makes; this crate only lends it lists and puts types around its numbers.
//!
//! ```
//! use ciwetanos::{outline, overlay, FillRule, OverlayRule, Settings};
//!
//! let mut segments = outline(&[(0, 0), (4, 0), (4, 4), (0, 4)], 1, 0);
//! segments.extend(outline(&[(2, 2), (6, 2), (6, 6), (2, 6)], 0, 1));
//! let settings = Settings { fill: FillRule::NonZero, rule: OverlayRule::Intersect, budget: 2 };
//!
//! let result = overlay(&segments, settings).unwrap();
//! assert_eq!((result.edges.len(), result.looks), (12, 2));
//! let kept: Vec<_> = result.kept().map(|edge| (edge.segment.a, edge.segment.b)).collect();
//! assert_eq!(kept, [((2, 2), (2, 4)), ((2, 2), (4, 2)), ((2, 4), (4, 4)), ((4, 2), (4, 4))]);
//! ```
//!
//! An outline with an open end is refused:
//!
//! ```
//! use ciwetanos::{outline, overlay, FillRule, OverlayRule, Refusal, Settings};
//!
//! let mut segments = outline(&[(0, 0), (4, 0), (4, 4)], 1, 0);
//! segments.pop();
//! let settings = Settings { fill: FillRule::NonZero, rule: OverlayRule::Subject, budget: 64 };
//! assert_eq!(overlay(&segments, settings), Err(Refusal::Open));
//! assert!(Refusal::Open.to_string().ends_with("close the outline"));
//! ```

pub mod raw;
mod refusal;
pub mod text;

pub use refusal::Refusal;

/// The most segments that a list can have, before and after it is split.
pub const MOST_SEGMENTS: usize = 2048;
/// The most marks that a look can yield.
pub const MOST_MARKS: usize = 65_536;
/// The most edges that can lie side by side in the sweep.
pub const MOST_LIVE: usize = 2048;

/// A segment from a to b. It counts as so many segments of the subject and of the clip; a negative count is one of the other direction.
#[derive(Clone, Copy, Debug, PartialEq, Eq)]
pub struct Segment {
    pub a: (i32, i32),
    pub b: (i32, i32),
    pub subject: i32,
    pub clip: i32,
}

/// The segments of a closed outline through these points.
///
/// ```
/// let triangle = ciwetanos::outline(&[(0, 0), (5, 0), (0, 5)], 1, 0);
/// assert_eq!(triangle.len(), 3);
/// assert_eq!((triangle[2].a, triangle[2].b), ((0, 5), (0, 0)));
/// ```
pub fn outline(points: &[(i32, i32)], subject: i32, clip: i32) -> Vec<Segment> {
    let next = points.iter().cycle().skip(1);
    points.iter().zip(next).map(|(&a, &b)| Segment { a, b, subject, clip }).collect()
}

/// Which counts mean inside: EvenOdd and NonZero are those of SVG.
#[derive(Clone, Copy, Debug, PartialEq, Eq)]
pub enum FillRule {
    EvenOdd,
    NonZero,
    Positive,
    Negative,
}

impl FillRule {
    /// All of them, in the order of their numbers.
    pub const ALL: [FillRule; 4] = [FillRule::EvenOdd, FillRule::NonZero, FillRule::Positive, FillRule::Negative];
}

/// Which edges are kept: those with the result on one side only.
#[derive(Clone, Copy, Debug, PartialEq, Eq)]
pub enum OverlayRule {
    Subject,
    Clip,
    Intersect,
    Union,
    Difference,
    InverseDifference,
    Xor,
}

impl OverlayRule {
    /// All of them, in the order of their numbers.
    pub const ALL: [OverlayRule; 7] = [
        OverlayRule::Subject,
        OverlayRule::Clip,
        OverlayRule::Intersect,
        OverlayRule::Union,
        OverlayRule::Difference,
        OverlayRule::InverseDifference,
        OverlayRule::Xor,
    ];
}

/// The rules, and how often the list may be looked at, from 1 to 64 times.
#[derive(Clone, Copy, Debug, PartialEq, Eq)]
pub struct Settings {
    pub fill: FillRule,
    pub rule: OverlayRule,
    pub budget: u32,
}

/// An edge of a settled list: it runs from its left end to its right end, an upright one upwards.
#[derive(Clone, Copy, Debug, PartialEq, Eq)]
pub struct Edge {
    pub segment: Segment,
    /// 1 subject on top, 2 subject at the bottom, 4 clip on top, 8 clip at the bottom, 16 kept. The top of an upright edge is its left.
    pub byte: u8,
}

impl Edge {
    /// Whether the subject lies above the edge (left of an upright one), and whether below it (right of it).
    pub fn subject(&self) -> (bool, bool) {
        (self.byte & 1 != 0, self.byte & 2 != 0)
    }

    /// The same of the clip.
    pub fn clip(&self) -> (bool, bool) {
        (self.byte & 4 != 0, self.byte & 8 != 0)
    }

    /// Whether the rule keeps the edge.
    pub fn is_kept(&self) -> bool {
        self.byte & 16 != 0
    }
}

/// A settled list: no two edges meet except at ends of both.
#[derive(Clone, Debug, PartialEq, Eq)]
pub struct Overlay {
    pub edges: Vec<Edge>,
    /// How often the list was looked at.
    pub looks: usize,
}

impl Overlay {
    /// The edges that the rule keeps.
    pub fn kept(&self) -> impl Iterator<Item = &Edge> {
        self.edges.iter().filter(|edge| edge.is_kept())
    }
}

/// The overlay of the segments, or why there is none. It lends lists of the largest size.
pub fn overlay(segments: &[Segment], settings: Settings) -> Result<Overlay, Refusal> {
    let input: Vec<i32> = segments.iter().flat_map(numbers).collect();
    let mut lists = raw::Lists::with_room(MOST_SEGMENTS, MOST_MARKS, MOST_LIVE);
    let Settings { fill, rule, budget } = settings;
    let report = lists.overlay(&input, segments.len(), fill as u32, rule as u32, budget);
    match Refusal::of(report.answer) {
        Some(refusal) => Err(refusal),
        None => Ok(Overlay { edges: lists.edges(report.segments as usize), looks: report.looks as usize }),
    }
}

fn numbers(s: &Segment) -> [i32; 6] {
    [s.a.0, s.a.1, s.b.0, s.b.1, s.subject, s.clip]
}

/// How two segments cross.
#[derive(Clone, Copy, Debug, PartialEq, Eq)]
pub enum Kind {
    /// Inside both: both are marked.
    Pure,
    /// At an end of the target: the other is marked.
    TargetEnd,
    /// At an end of the other: the target is marked.
    OtherEnd,
    /// All on one line. Which ends mark the other segment: target a 1, target b 2, other a 4, other b 8.
    Overlay(u8),
}

/// A crossing. The point of segments on one line is (0, 0).
#[derive(Clone, Copy, Debug, PartialEq, Eq)]
pub struct Crossing {
    pub kind: Kind,
    pub point: (i32, i32),
    pub rounded: bool,
}

/// How target and other cross, with the squared radius 2 of the run; `OffGrid` and `NoLength` are the only refusals.
///
/// ```
/// use ciwetanos::{cross, Crossing, Kind};
///
/// let found = cross([(0, 0), (9, 9)], [(0, 9), (9, 0)]).unwrap();
/// assert_eq!(found, Some(Crossing { kind: Kind::Pure, point: (5, 5), rounded: true }));
/// assert_eq!(cross([(0, 0), (9, 9)], [(20, 0), (30, 0)]), Ok(None));
/// ```
pub fn cross(target: [(i32, i32); 2], other: [(i32, i32); 2]) -> Result<Option<Crossing>, Refusal> {
    let [(tax, tay), (tbx, tby)] = target;
    let [(oax, oay), (obx, oby)] = other;
    let report = raw::cross(&[tax, tay, tbx, tby, oax, oay, obx, oby]);
    if let Some(refusal) = Refusal::of(report.answer) {
        return Err(refusal);
    }
    let kind = match report.kind {
        0 => return Ok(None),
        1 => Kind::Pure,
        2 => Kind::TargetEnd,
        3 => Kind::OtherEnd,
        _ => Kind::Overlay(report.mask as u8),
    };
    Ok(Some(Crossing { kind, point: (report.x as i32, report.y as i32), rounded: report.rounded == 1 }))
}
