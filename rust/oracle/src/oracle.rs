//! Document 01's run with the crate's merge, crossing, splitting, sweep and filters: around them the checks, the capacities and the lists.

use crate::build::builder::GraphBuilder;
use crate::core::extract::VisitState;
use crate::core::fill_rule::FillRule;
use crate::core::graph::OverlayNode;
use crate::core::link::{OverlayLink, OverlayLinkFilter};
use crate::core::overlay::IntOverlayOptions;
use crate::core::overlay_rule::OverlayRule;
use crate::core::solver::Solver;
use crate::geom::x_segment::XSegment;
use crate::int::point::IntPoint;
use crate::segm::boolean::ShapeCountBoolean;
use crate::segm::merge::ShapeSegmentsMerge;
use crate::segm::segment;
use crate::segm::winding::WindingCount;
use crate::split::{cross_pair, solver::SplitSolver};
use crate::{Cross, Lists, Outcome, Row, Settings};
use std::collections::HashMap;

pub(crate) type Segment = segment::Segment<ShapeCountBoolean, i32, ()>;

/// The run, with sums in 64 bits, or in 32 bits as the crate has them; then 9 is never given.
pub fn run(input: &[i32], settings: Settings, lists: Lists, narrow: bool) -> Outcome {
    if let Some(number) = refusal(input, settings, &lists) {
        return Outcome::refused(number, lists);
    }
    let solver = Solver::new(
        room(lists.work.len(), 6, 2048),
        room(lists.marks.len(), 3, 65_536),
        room(lists.scan.len(), 3, 2048),
        settings.budget as usize,
    );
    match settle_and_fill(rows(input, settings.n), settings, &solver, narrow) {
        Ok((rows, bytes, looks)) => Outcome::settled(&rows, &bytes, looks, lists),
        Err(number) => Outcome::refused(number, lists),
    }
}

/// The crate as it is: its own outer loop, sums in 32 bits, no checks and no limits. None where its loop was not found.
pub fn run_as_crate(input: &[i32], settings: Settings) -> Option<(Vec<Row>, Vec<u8>)> {
    if !cfg!(own_loop) {
        return None;
    }
    let solver = Solver::own();
    let (rows, bytes, _) = settle_and_fill(rows(input, settings.n), settings, &solver, true).ok()?;
    Some((rows, bytes))
}

/// The rows with their bytes and the number of looks, or a refusal from 7 on.
fn settle_and_fill(
    rows: &[Row],
    settings: Settings,
    solver: &Solver,
    narrow: bool,
) -> Result<(Vec<Row>, Vec<u8>, usize), u32> {
    let mut segments: Vec<Segment> = rows.iter().map(|row| turned(row, narrow)).collect();
    SplitSolver::new().split_segments_with_store(&mut segments, solver, &mut ());
    let looks = solver.looks()?;
    let bytes = filled(&segments, settings.fill, settings.rule, solver)?;
    Ok((segments.iter().map(row_of).collect(), bytes, looks))
}

/// Each segment's mask, 16 added where it is kept; or 11.
pub(crate) fn filled(segments: &[Segment], fill: u32, rule: u32, solver: &Solver) -> Result<Vec<u8>, u32> {
    let mut builder = GraphBuilder::<ShapeCountBoolean, OverlayNode, i32, ()>::new();
    let (fill, rule) = (FillRule::ALL[fill as usize], OverlayRule::ALL[rule as usize]);
    builder.build_boolean_overlay(fill, rule, IntOverlayOptions::default(), solver, segments);
    if builder.is_crowded {
        return Err(11);
    }
    Ok(builder.masks.iter().zip(&builder.kept).map(|(mask, kept)| mask + 16 * u8::from(*kept)).collect())
}

/// The bytes of any sorted list of turned rows, settled or not; fill and rule in range.
pub fn fill(rows: &[Row], fill: u32, rule: u32) -> Vec<u8> {
    let segments: Vec<Segment> = rows.iter().map(|row| as_given(row, false)).collect();
    filled(&segments, fill, rule, &Solver::own()).expect("all the room it asks for")
}

/// How target and other cross, both as they are given, turned or not.
pub fn cross(target: [i32; 4], other: [i32; 4], radius_squared: u64) -> Option<Cross> {
    let segment = |[ax, ay, bx, by]: [i32; 4]| XSegment { a: IntPoint::new(ax, ay), b: IntPoint::new(bx, by) };
    cross_pair(&segment(target), &segment(other), radius_squared)
}

/// The merged rows and whether equal neighbours were found, or 9.
pub fn merge(rows: &[Row]) -> Result<(Vec<Row>, bool), u32> {
    let mut segments: Vec<Segment> = rows.iter().map(|row| as_given(row, false)).collect();
    let found = segments.merge_if_needed_with_store(&mut ());
    if segments.iter().any(|s| s.count.is_far()) {
        return Err(9);
    }
    Ok((segments.iter().map(row_of).collect(), found))
}

/// Whether the rule of this number, 0 to 6, keeps an edge with this mask.
pub fn keep(rule: u32, mask: u8) -> bool {
    let mut visits: Vec<VisitState> = Vec::new();
    [OverlayLink::<i32, ()>::new(mask)].filter_by_overlay_into(OverlayRule::ALL[rule as usize], &mut visits);
    !visits[0].is_skipped
}

/// Whole entries, cut to the limit.
fn room(length: usize, width: usize, limit: usize) -> usize {
    (length / width).min(limit)
}

fn rows(input: &[i32], n: u32) -> &[Row] {
    &input.as_chunks::<6>().0[..n as usize]
}

/// The first of 1 to 6 that holds.
fn refusal(input: &[i32], settings: Settings, lists: &Lists) -> Option<u32> {
    let n = settings.n as usize;
    let work = room(lists.work.len(), 6, 2048);
    if n > 2048 || input.len() < 6 * n || work < n || lists.masks.len() < work {
        return Some(1);
    }
    if settings.fill > 3 || settings.rule > 6 || !(1..=64).contains(&settings.budget) {
        return Some(2);
    }
    let rows = rows(input, settings.n);
    let grid = -(1 << 30)..1 << 30;
    if rows.iter().any(|row| row[..4].iter().any(|z| !grid.contains(z))) {
        return Some(3);
    }
    if rows.iter().any(|row| row[..2] == row[2..4]) {
        return Some(4);
    }
    if rows.iter().any(|row| row[4..].contains(&i32::MIN)) {
        return Some(5);
    }
    is_open(rows).then_some(6)
}

/// Whether at some point what starts is not what ends.
fn is_open(rows: &[Row]) -> bool {
    let mut sums: HashMap<[i32; 2], [i64; 2]> = HashMap::new();
    for [ax, ay, bx, by, subject, clip] in rows {
        for (point, sign) in [([*ax, *ay], 1), ([*bx, *by], -1)] {
            let sum = sums.entry(point).or_default();
            sum[0] += sign * i64::from(*subject);
            sum[1] += sign * i64::from(*clip);
        }
    }
    sums.values().any(|sum| *sum != [0, 0])
}

pub(crate) fn turned(row: &Row, narrow: bool) -> Segment {
    let s = as_given(row, narrow);
    Segment::create_and_validate_with_data(s.x_segment.a, s.x_segment.b, s.count, (), &mut ())
}

pub(crate) fn as_given(&[ax, ay, bx, by, subj, clip]: &Row, narrow: bool) -> Segment {
    let x_segment = XSegment { a: IntPoint::new(ax, ay), b: IntPoint::new(bx, by) };
    Segment { x_segment, count: ShapeCountBoolean::with_width(subj, clip, narrow), data: () }
}

fn row_of(s: &Segment) -> Row {
    let count = |sum: i64| i32::try_from(sum).expect("totals were tested");
    let XSegment { a, b } = s.x_segment;
    [a.x, a.y, b.x, b.y, count(s.count.subj), count(s.count.clip)]
}
