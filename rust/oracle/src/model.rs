//! Document 01 once more, in plain Rust without a file of the crate: naive, one sentence after the other, in 128 bits where products are met.

use crate::{Cross, Kind, Lists, Outcome, Row, Settings};
use std::collections::{BTreeMap, BTreeSet};

/// x, then y.
type Point = (i128, i128);

#[derive(Clone, Copy, PartialEq, Eq)]
struct Edge {
    a: Point,
    b: Point,
    /// Subject, clip.
    counts: [i128; 2],
}

/// A segment's number, and a point on it.
type Mark = (usize, Point);

/// The greatest count.
const MOST: i128 = (1 << 31) - 1;

// ---- input and answer

pub fn run(input: &[i32], settings: Settings, lists: Lists) -> Outcome {
    let capacity = (lists.work.len() / 6).min(2048);
    let n = settings.n as usize;
    if n > 2048 || input.len() < 6 * n || capacity < n || lists.masks.len() < capacity {
        return Outcome::refused(1, lists);
    }
    let edges: Vec<Edge> = input.chunks(6).take(n).map(edge).collect();
    let number = refusal(&edges, settings);
    if number != 0 {
        return Outcome::refused(number, lists);
    }
    let limits = Limits {
        segments: capacity,
        marks: (lists.marks.len() / 3).min(65_536),
        scan: (lists.scan.len() / 3).min(2048),
    };
    match settle(&edges, settings.budget as usize, &limits, &mut Limits::default()) {
        Err(number) => Outcome::refused(number, lists),
        Ok((edges, looks)) => {
            let rows: Vec<Row> = edges.iter().map(row).collect();
            Outcome::settled(&rows, &bytes(&edges, settings.fill, settings.rule), looks, lists)
        }
    }
}

/// Room for segments, marks and scan entries, given or taken.
#[derive(Clone, Copy, Debug, Default, PartialEq, Eq)]
pub struct Limits {
    pub segments: usize,
    pub marks: usize,
    pub scan: usize,
}

/// The room that a run takes where it is given all it asks for, and the looks it makes or its refusal (9 or 10).
pub fn needs(input: &[i32], budget: usize) -> (Limits, Result<usize, u32>) {
    let edges: Vec<Edge> = input.chunks_exact(6).map(edge).collect();
    let all = Limits { segments: usize::MAX, marks: usize::MAX, scan: usize::MAX };
    let mut taken = Limits { segments: edges.len(), ..Limits::default() };
    let end = settle(&edges, budget, &all, &mut taken);
    (taken, end.map(|(_, looks)| looks))
}

fn edge(row: &[i32]) -> Edge {
    let [ax, ay, bx, by, s, c] = [0, 1, 2, 3, 4, 5].map(|k| i128::from(row[k]));
    Edge { a: (ax, ay), b: (bx, by), counts: [s, c] }
}

fn row(e: &Edge) -> Row {
    [e.a.0, e.a.1, e.b.0, e.b.1, e.counts[0], e.counts[1]].map(|z| z.try_into().expect("32 bits"))
}

/// 2 to 6, or 0.
fn refusal(edges: &[Edge], settings: Settings) -> u32 {
    let off = |z: i128| !(-(1 << 30)..=(1 << 30) - 1).contains(&z);
    if settings.fill >= 4 || settings.rule >= 7 || settings.budget < 1 || settings.budget > 64 {
        2
    } else if edges.iter().any(|e| off(e.a.0) || off(e.a.1) || off(e.b.0) || off(e.b.1)) {
        3
    } else if edges.iter().any(|e| e.a == e.b) {
        4
    } else if edges.iter().any(|e| e.counts.contains(&-(1 << 31))) {
        5
    } else if !is_closed(edges, 0) || !is_closed(edges, 1) {
        6
    } else {
        0
    }
}

/// At every point what starts there sums to what ends there.
fn is_closed(edges: &[Edge], side: usize) -> bool {
    let sums = |end: fn(&Edge) -> Point| {
        let mut sums: BTreeMap<Point, i128> = BTreeMap::new();
        for e in edges {
            *sums.entry(end(e)).or_default() += e.counts[side];
        }
        sums.retain(|_, sum| *sum != 0);
        sums
    };
    sums(|e| e.a) == sums(|e| e.b)
}

// ---- the run

/// The settled list and the looks, or a refusal from 7 on; `taken` is raised to what was needed.
fn settle(edges: &[Edge], budget: usize, limits: &Limits, taken: &mut Limits) -> Result<(Vec<Edge>, usize), u32> {
    let mut list = join(edges.iter().map(turn_forward).collect())?;
    let mut looks = 0;
    while !list.is_empty() {
        let marks = look(&list);
        looks += 1;
        taken.marks = taken.marks.max(marks.len());
        if marks.len() > limits.marks {
            return Err(7);
        }
        if marks.is_empty() {
            break;
        }
        if looks == budget {
            return Err(10);
        }
        let marks: BTreeSet<Mark> = marks.into_iter().collect();
        let size = list.len() + marks.len();
        taken.segments = taken.segments.max(size);
        if size > limits.segments {
            return Err(8);
        }
        list = join(split(&list, &marks))?;
    }
    taken.scan = list.iter().map(|e| live(&list, e.a)).max().unwrap_or(0);
    if taken.scan > limits.scan {
        return Err(11);
    }
    Ok((list, looks))
}

fn turn_forward(e: &Edge) -> Edge {
    if e.a > e.b {
        Edge { a: e.b, b: e.a, counts: e.counts.map(|c| -c) }
    } else {
        *e
    }
}

/// Sorted and merged; 9 where the total of a group is too big.
fn join(mut list: Vec<Edge>) -> Result<Vec<Edge>, u32> {
    list.sort_by_key(|e| (e.a, e.b));
    merged(&list).map(|(list, _)| list)
}

fn merged(list: &[Edge]) -> Result<(Vec<Edge>, bool), u32> {
    let groups: Vec<&[Edge]> = list.chunk_by(|e, f| (e.a, e.b) == (f.a, f.b)).collect();
    let total = |group: &[Edge], side: usize| group.iter().map(|e| e.counts[side]).sum::<i128>();
    let sum = |group: &[Edge]| Edge { counts: [total(group, 0), total(group, 1)], ..group[0] };
    if groups.iter().any(|group| sum(group).counts.iter().any(|c| c.abs() > MOST)) {
        return Err(9);
    }
    let first = groups.iter().position(|group| group.len() > 1).unwrap_or(groups.len());
    let before = groups[..first].iter().map(|group| group[0]);
    let after = groups[first..].iter().map(|group| sum(group)).filter(|e| e.counts != [0, 0]);
    Ok((before.chain(after).collect(), first < groups.len()))
}

/// The merged rows and whether equal neighbours were found, or 9.
pub fn merge(rows: &[Row]) -> Result<(Vec<Row>, bool), u32> {
    let list: Vec<Edge> = rows.iter().map(|row| edge(row)).collect();
    let (list, found) = merged(&list)?;
    Ok((list.iter().map(row).collect(), found))
}

fn look(list: &[Edge]) -> Vec<Mark> {
    let mut marks = Vec::new();
    for i in 0..list.len() {
        for j in i + 1..list.len() {
            if let Some(crossing) = crossing(&list[i], &list[j], 2) {
                let number = |(which, point): Mark| ([i, j][which], point);
                marks.extend(marks_of(&crossing, &list[i], &list[j]).into_iter().map(number));
            }
        }
    }
    marks
}

/// Whether a look at these rows yields no mark.
pub fn is_settled(rows: &[Row]) -> bool {
    look(&rows.iter().map(|row| edge(row)).collect::<Vec<Edge>>()).is_empty()
}

// ---- crossing

struct Crossing {
    kind: Kind,
    point: Point,
    rounded: bool,
}

/// Which side of the line a, b the point p is on: 1, 0, -1.
fn side(a: Point, b: Point, p: Point) -> i128 {
    ((b.0 - a.0) * (p.1 - a.1) - (b.1 - a.1) * (p.0 - a.0)).signum()
}

fn crossing(t: &Edge, o: &Edge, radius: i128) -> Option<Crossing> {
    let signs = [side(t.a, t.b, o.a), side(t.a, t.b, o.b), side(o.a, o.b, t.a), side(o.a, o.b, t.b)];
    let zeros = signs.iter().filter(|s| **s == 0).count();
    let end = |kind, point| Some(Crossing { kind, point, rounded: false });
    match signs {
        [0, 0, 0, 0] => end(Kind::Collinear(collinear(t, o)), (0, 0)),
        _ if zeros > 1 || signs[0] == signs[1] || signs[2] == signs[3] => None,
        [0, ..] => end(Kind::OtherEnd, o.a),
        [_, 0, ..] => end(Kind::OtherEnd, o.b),
        [_, _, 0, _] => end(Kind::TargetEnd, t.a),
        [.., 0] => end(Kind::TargetEnd, t.b),
        _ => Some(middle(t, o, radius)),
    }
}

/// Target a 1, target b 2, other a 4, other b 8.
fn collinear(t: &Edge, o: &Edge) -> u8 {
    let inside = |e: &Edge, p: Point| u8::from(e.a.min(e.b) < p && p < e.a.max(e.b));
    inside(o, t.a) + 2 * inside(o, t.b) + 4 * inside(t, o.a) + 8 * inside(t, o.b)
}

fn middle(t: &Edge, o: &Edge, radius: i128) -> Crossing {
    let point = middle_point(t, o);
    if side(t.a, t.b, point) == 0 && side(o.a, o.b, point) == 0 {
        return Crossing { kind: Kind::Pure, point, rounded: false };
    }
    let far = |p: Point| (p.0 - point.0).pow(2) + (p.1 - point.1).pow(2);
    // in the order of preference: of equals the first is taken
    let ends = [(Kind::TargetEnd, t.b), (Kind::TargetEnd, t.a), (Kind::OtherEnd, o.b), (Kind::OtherEnd, o.a)];
    let (kind, end) = ends.into_iter().min_by_key(|(_, p)| far(*p)).unwrap();
    if far(end) <= radius {
        Crossing { kind, point: end, rounded: true }
    } else {
        Crossing { kind: Kind::Pure, point, rounded: true }
    }
}

/// Target.a and the part n / d of the way to target.b, where the two lines meet.
fn middle_point(t: &Edge, o: &Edge) -> Point {
    let (dx, dy) = (t.b.0 - t.a.0, t.b.1 - t.a.1);
    let (ox, oy) = (o.b.0 - o.a.0, o.b.1 - o.a.1);
    let n = (o.a.0 - t.a.0) * oy - (o.a.1 - t.a.1) * ox;
    let d = dx * oy - dy * ox;
    let divide = if dx == 0 || dy == 0 { |n: i128, d: i128| n / d } else { nearest };
    (t.a.0 + divide(n * dx, d), t.a.1 + divide(n * dy, d))
}

/// A half away from zero.
fn nearest(n: i128, d: i128) -> i128 {
    let (quotient, rest) = (n / d, n % d);
    if 2 * rest.abs() >= d.abs() {
        quotient + n.signum() * d.signum()
    } else {
        quotient
    }
}

/// The marks, those of target as 0 and of other as 1.
fn marks_of(crossing: &Crossing, t: &Edge, o: &Edge) -> Vec<Mark> {
    let point = crossing.point;
    match crossing.kind {
        Kind::Pure => vec![(0, point), (1, point)],
        Kind::TargetEnd => vec![(1, point)],
        Kind::OtherEnd => vec![(0, point)],
        Kind::Collinear(mask) => {
            let ends = [(1, t.a), (1, t.b), (0, o.a), (0, o.b)];
            (0..4).filter(|bit| mask >> bit & 1 == 1).map(|bit| ends[bit]).collect()
        }
    }
}

/// How target and other cross, both as they are given, turned or not.
pub fn cross(target: [i32; 4], other: [i32; 4], radius_squared: u64) -> Option<Cross> {
    let [t, o] = [target, other].map(|[ax, ay, bx, by]| edge(&[ax, ay, bx, by, 0, 0]));
    let found = crossing(&t, &o, radius_squared.into())?;
    let small = |z: i128| i32::try_from(z).expect("32 bits");
    let marks = marks_of(&found, &t, &o).into_iter().map(|(which, p)| (which, small(p.0), small(p.1))).collect();
    Some(Cross { kind: found.kind, point: (small(found.point.0), small(found.point.1)), rounded: found.rounded, marks })
}

// ---- splitting

fn split(list: &[Edge], marks: &BTreeSet<Mark>) -> Vec<Edge> {
    let mut pieces = Vec::new();
    for (i, e) in list.iter().enumerate() {
        let points: Vec<Point> = marks.iter().filter(|mark| mark.0 == i).map(|mark| mark.1).collect();
        let chain = chain(e, &points);
        pieces.extend(chain.windows(2).map(|ends| turn_forward(&Edge { a: ends[0], b: ends[1], ..*e })));
    }
    pieces
}

/// a, the marks in the order in which they cut the segment, b.
fn chain(e: &Edge, points: &[Point]) -> Vec<Point> {
    let mut chain = vec![e.a];
    let columns: Vec<&[Point]> = points.chunk_by(|p, q| p.0 == q.0).collect();
    for (k, column) in columns.iter().enumerate() {
        let before = chain[chain.len() - 1];
        let after = columns.get(k + 1).map_or(e.b, |next| next[0]);
        let mut column = column.to_vec();
        if before.1 > after.1 {
            column.reverse();
        }
        chain.extend(column);
    }
    chain.push(e.b);
    chain
}

// ---- masks

/// Live after a node at p.
fn live(list: &[Edge], p: Point) -> usize {
    list.iter().filter(|t| t.a.0 != t.b.0 && t.a <= p && t.b.0 > p.0).count()
}

/// Whether t is counted at the bottom of e.
fn is_below(t: &Edge, e: &Edge) -> bool {
    let x = e.a.0;
    if !(t.a.0 <= x && x < t.b.0) {
        return false;
    }
    // heights over t.b.x - t.a.x, slopes over the product of both widths
    let width = t.b.0 - t.a.0;
    let height = t.a.1 * width + (t.b.1 - t.a.1) * (x - t.a.0);
    let level = e.a.1 * width;
    let slope = (t.b.1 - t.a.1) * (e.b.0 - e.a.0);
    let other_slope = (e.b.1 - e.a.1) * width;
    if e.a.0 == e.b.0 {
        height <= level
    } else {
        height < level || height == level && slope < other_slope
    }
}

/// The bytes of any list of turned rows, settled or not; fill and rule in range.
pub fn fill(rows: &[Row], fill: u32, rule: u32) -> Vec<u8> {
    let list: Vec<Edge> = rows.iter().map(|row| edge(row)).collect();
    bytes(&list, fill, rule)
}

fn bytes(list: &[Edge], fill: u32, rule: u32) -> Vec<u8> {
    list.iter().map(|e| byte(list, e, fill, rule)).collect()
}

fn byte(list: &[Edge], e: &Edge, fill: u32, rule: u32) -> u8 {
    let below = list.iter().filter(|t| is_below(t, e));
    let bottom = below.fold([0, 0], |sum, t| [sum[0] + t.counts[0], sum[1] + t.counts[1]]);
    let top = [bottom[0] + e.counts[0], bottom[1] + e.counts[1]];
    let flag = |sum: i128| u8::from(is_inside(fill, sum));
    let mask = flag(top[0]) + 2 * flag(bottom[0]) + 4 * flag(top[1]) + 8 * flag(bottom[1]);
    mask + 16 * u8::from(keep(rule, mask))
}

fn is_inside(fill: u32, sum: i128) -> bool {
    match fill {
        0 => sum.rem_euclid(2) == 1,
        1 => sum != 0,
        2 => sum > 0,
        _ => sum < 0,
    }
}

/// Whether the rule of this number, 0 to 6, keeps an edge with this mask: its truth on top differs from that on bottom.
pub fn keep(rule: u32, mask: u8) -> bool {
    let truth = |subject: bool, clip: bool| match rule {
        0 => subject,
        1 => clip,
        2 => subject && clip,
        3 => subject || clip,
        4 => subject && !clip,
        5 => clip && !subject,
        _ => subject != clip,
    };
    let bit = |value: u8| mask & value != 0;
    truth(bit(1), bit(4)) != truth(bit(2), bit(8))
}
