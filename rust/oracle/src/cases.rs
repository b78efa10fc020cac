//! Cases to run: those of document 01, and closed outlines made at random.

use crate::model::{self, Limits};
use crate::random::Random;
use crate::{Lists, Settings};

/// A run to be made: its input, and the lengths of the lists that are lent (see `Lists::sevens`).
#[derive(Clone, Debug, PartialEq, Eq)]
pub struct Case {
    pub settings: Settings,
    pub work: usize,
    pub marks: usize,
    pub scan: usize,
    pub masks: usize,
    pub input: Vec<i32>,
}

impl Case {
    /// All segments of the input, with room for so many segments, marks and scan entries.
    pub fn new(input: Vec<i32>, fill: u32, rule: u32, budget: u32, room: Limits) -> Self {
        let settings = Settings { n: (input.len() / 6) as u32, fill, rule, budget };
        Case {
            settings,
            work: 6 * room.segments,
            marks: 3 * room.marks,
            scan: 3 * room.scan,
            masks: room.segments,
            input,
        }
    }

    pub fn lists(&self) -> Lists {
        Lists::sevens(self.work, self.marks, self.scan, self.masks)
    }
}

/// The segments of a closed outline through these points, with these counts; a point after its like is left out.
pub fn outline(points: &[(i32, i32)], subject: i32, clip: i32) -> Vec<i32> {
    let next = points.iter().cycle().skip(1);
    let sides = points.iter().zip(next).filter(|(a, b)| a != b);
    sides.flat_map(|(a, b)| [a.0, a.1, b.0, b.1, subject, clip]).collect()
}

// ---- chosen cases

const BIG: i32 = i32::MAX;
const EDGE: i32 = 1 << 30;
const NONZERO: u32 = 1;
const POSITIVE: u32 = 2;
const SUBJECT: u32 = 0;
const INTERSECT: u32 = 2;
const UNION: u32 = 3;

fn room(segments: usize, marks: usize, scan: usize) -> Limits {
    Limits { segments, marks, scan }
}

/// The two squares of document 01's printed run.
pub fn squares() -> Vec<i32> {
    let square = |u, v, s, c| outline(&[(u, u), (v, u), (v, v), (u, v)], s, c);
    [square(0, 4, 1, 0), square(2, 6, 0, 1)].concat()
}

/// The printed run; then with budget 1, and with too little room for marks, for segments, for the scan; then with two of these faults.
fn printed() -> Vec<Case> {
    let squares = |budget, room| Case::new(squares(), NONZERO, INTERSECT, budget, room);
    vec![
        squares(2, room(2048, 4096, 2048)),
        squares(2, room(12, 4, 4)),
        squares(1, room(12, 4, 4)),
        squares(2, room(12, 3, 4)),
        squares(2, room(11, 4, 4)),
        squares(2, room(12, 4, 3)),
        squares(1, room(12, 3, 4)),
        squares(1, room(11, 4, 4)),
        squares(2, room(11, 3, 4)),
        squares(2, room(11, 4, 3)),
    ]
}

/// Sizes at the limits: nothing at all, too many segments, lists a number short, lengths that 6 and 3 don't divide.
fn sizes() -> Vec<Case> {
    let whole = Case::new(squares(), NONZERO, UNION, 64, room(12, 4, 4));
    let mut cases = vec![Case::new(Vec::new(), 0, 0, 1, room(0, 0, 0)), whole.clone()];
    let mut add = |change: fn(&mut Case)| {
        let mut case = whole.clone();
        change(&mut case);
        cases.push(case);
    };
    add(|c| c.settings.n = 2049);
    add(|c| c.settings.n = 9);
    add(|c| c.settings.n = 0);
    add(|c| c.work = 6 * 8 - 1);
    add(|c| c.masks = 11);
    add(|c| (c.work, c.marks, c.scan, c.masks) = (77, 14, 14, 20));
    add(|c| (c.work, c.marks, c.scan) = (77, 11, 14));
    add(|c| c.input.extend([EDGE, 5, 5, 5, i32::MIN]));
    cases
}

/// Each of 2 to 6 alone and before the next one.
fn refusals() -> Vec<Case> {
    let faults: [(usize, i32); 5] = [(0, EDGE), (3, -EDGE - 1), (2, 0), (4, i32::MIN), (4, 2)];
    let triangle = || outline(&[(0, 0), (9, 0), (0, 9)], 1, 0);
    let case = |input, fill, rule, budget| Case::new(input, fill, rule, budget, room(3, 0, 2));
    let mut cases: Vec<Case> = [(4, 0, 1), (0, 7, 1), (0, 0, 0), (0, 0, 65), (3, 6, 64)]
        .map(|(fill, rule, budget)| case(triangle(), fill, rule, budget))
        .into();
    for (first, (place, value)) in faults.into_iter().enumerate() {
        let mut input = triangle();
        input[place] = value;
        cases.push(case(input.clone(), 0, 0, 64));
        for (other, value) in faults.into_iter().skip(first + 1) {
            input[6 + other] = value;
        }
        cases.push(case(input, 0, 0, 64));
    }
    cases
}

/// By Positive and Subject, with room for all.
fn roomy(input: Vec<i32>, budget: u32) -> Case {
    Case::new(input, POSITIVE, SUBJECT, budget, room(200, 500, 200))
}

/// Totals and sums at the limits and past them, over one triangle, after a split, and along a ray.
fn sums() -> Vec<Case> {
    let thrice = |counts: [(i32, i32); 3]| {
        let triangles = counts.map(|(subject, clip)| outline(&[(0, 0), (5, 0), (0, 5)], subject, clip));
        roomy(triangles.concat(), 8)
    };
    let two = |outer: [(i32, i32); 3], inner: [(i32, i32); 3], count| {
        roomy([outline(&outer, BIG, 0), outline(&inner, count, 0)].concat(), 8)
    };
    vec![
        thrice([(BIG, 0), (1, 0), (-1, BIG)]),
        thrice([(BIG, 0), (1, 0), (0, 0)]),
        thrice([(-BIG, 0), (0, 0), (-1, 0)]),
        thrice([(0, BIG), (0, -BIG), (2, BIG)]),
        roomy([outline(&[(0, 0), (5, 0), (0, 5)], -BIG, 0), outline(&[(0, 0), (5, 0), (9, 9)], -1, 0)].concat(), 8),
        two([(0, 0), (8, 0), (4, 9)], [(2, 0), (6, 0), (4, 5)], BIG),
        two([(0, 0), (9, 0), (0, 9)], [(1, 1), (3, 1), (1, 3)], 1),
    ]
}

/// Few looks and many: to the edges of the grid, creeping slivers, a mark past the end of its segment.
fn looks() -> Vec<Case> {
    let creeping = |width| outline(&[(0, 0), (width, 2), (1, 1), (width - 2, 2)], 1, 0);
    vec![
        roomy(outline(&[(-EDGE, -EDGE), (EDGE - 1, -EDGE), (-EDGE, EDGE - 1), (EDGE - 1, EDGE - 1)], 1, 0), 8),
        roomy(creeping(133), 64),
        roomy(creeping(43), 20),
        roomy(creeping(43), 19),
        roomy(creeping(21), 64),
        roomy(outline(&[(5982, 3), (94, 1), (5912, 2), (3, 1), (6000, 0)], 1, 0), 64),
        roomy(outline(&[(0, 0), (1, 1), (0, 1), (1, 0)], 1, 0), 8),
    ]
}

/// Lists that cancel, at once or after a split, and edges without counts, upright and not, without room in the scan.
fn empties() -> Vec<Case> {
    let cancelling = vec![0, 0, 4, 0, 1, 0, 0, 0, 2, 0, -1, 0, 2, 0, 4, 0, -1, 0];
    vec![
        roomy(outline(&[(0, 0), (3, 2)], 1, 1), 1),
        roomy(cancelling.clone(), 2),
        roomy(cancelling, 1),
        roomy(vec![0, 0, 0, 4, 0, 0, -2, 1, 2, 3, 0, 0], 8),
        Case::new(vec![0, 0, 0, 4, 0, 0], 0, 0, 1, room(1, 0, 0)),
        Case::new(vec![0, 0, 1, 4, 0, 0], 0, 0, 1, room(1, 0, 0)),
    ]
}

/// Lists longer than the limits are cut to them. Lent room for more, 2,048 segments settle, and with a mark they are 8; masks are held
/// against the work list after the cut; a grid of 90 by 90 bars yields 64,800 marks (8), one of 91 by 91 more than 65,536 (7).
pub fn limits() -> Vec<Case> {
    let apart = |k: i32| outline(&[(4 * k, 0), (4 * k + 2, 0), (4 * k + 2, 2), (4 * k, 2)], 1, 0);
    let row = |squares: i32| (0..squares).flat_map(apart).collect::<Vec<i32>>();
    let across = [row(510), outline(&[(1, 1), (5, 1), (5, 5), (1, 5)], 0, 1), apart(511)].concat();
    let grid = |size: i32| {
        let bar = |x, y, wide, high| outline(&[(x, y), (x + wide, y), (x + wide, y + high), (x, y + high)], 1, 0);
        (0..size).flat_map(|k| [bar(0, 4 * k + 1, 999, 2), bar(4 * k + 1, 0, 2, 999)].concat()).collect()
    };
    let case = |input| Case::new(input, NONZERO, UNION, 64, room(2100, 100_000, 2100));
    let [mut cut, mut short] = [case(squares()), case(squares())];
    (cut.masks, short.masks) = (2048, 2047);
    vec![case(row(512)), case(across), cut, short, case(grid(90)), case(grid(91))]
}

/// All cases that were chosen by hand.
pub fn chosen() -> Vec<Case> {
    [printed(), sizes(), refusals(), sums(), looks(), empties()].concat()
}

/// Cases to be stored: those chosen by hand, and then so many small ones with every fill and overlay rule in turn.
pub fn samples(more: usize) -> Vec<Case> {
    let mut random = Random::new(2026);
    let mut cases = chosen();
    while cases.len() < chosen().len() + more {
        let mut case = any(&mut random);
        if case.settings.n <= 24 && case.work <= 6 * 400 && case.marks <= 3 * 1000 {
            if case.settings.fill < 4 && case.settings.rule < 7 {
                case.settings.fill = cases.len() as u32 % 4;
                case.settings.rule = cases.len() as u32 % 7;
            }
            cases.push(case);
        }
    }
    cases
}

// ---- random cases

/// Outlines on a small or large grid, slivers, or outlines with much in common; counts small or at the limits; room ample or just about
/// what is needed; and now and then something wrong with it.
pub fn any(random: &mut Random) -> Case {
    let mut input = Vec::new();
    let points = random.pick(&[small as Points, small, crowded, large, sliver, far_sliver, medium]);
    let count = random.pick(&[one as CountOf, one, few, few, limit]);
    for _ in 0..random.between(1, 4) {
        let (subject, clip) = random.pick(&[(1, 0), (0, 1), (1, 0), (0, 1), (1, 1)]);
        input.extend(outline(&points(random), subject * count(random), clip * count(random)));
    }
    mix(random, &mut input);
    let fill = random.between(0, 3) as u32;
    let rule = random.between(0, 6) as u32;
    let budget = if random.once_in(4) { random.between(1, 4) as u32 } else { 64 };
    let room = any_room(random, &input, budget);
    let mut case = Case::new(input, fill, rule, budget, room);
    if random.once_in(3) {
        (case.work, case.marks) = (case.work + 5, case.marks + 2);
        (case.scan, case.masks) = (case.scan + 1, case.masks + 3);
    }
    if random.once_in(8) {
        for _ in 0..random.between(1, 3) {
            spoil(random, &mut case);
        }
    }
    case
}

type Points = fn(&mut Random) -> Vec<(i32, i32)>;
type CountOf = fn(&mut Random) -> i32;

fn points(random: &mut Random, most: i32, mut point: impl FnMut(&mut Random) -> (i32, i32)) -> Vec<(i32, i32)> {
    (0..random.between(2, most)).map(|_| point(random)).collect()
}

fn small(random: &mut Random) -> Vec<(i32, i32)> {
    let size = random.between(1, 12);
    points(random, 8, |r| (r.between(0, size), r.between(-size, size)))
}

/// Few lines, so that much is collinear and overlaps.
fn crowded(random: &mut Random) -> Vec<(i32, i32)> {
    let (width, height) = (random.between(1, 9), random.between(0, 2));
    if random.once_in(2) {
        return points(random, 7, |r| (r.between(0, width), r.between(0, height)));
    }
    points(random, 7, |r| {
        let (way, off) = (r.between(0, width), r.between(0, height));
        (2 * way, way + off)
    })
}

fn large(random: &mut Random) -> Vec<(i32, i32)> {
    let one = |r: &mut Random| match r.between(0, 5) {
        0 => -EDGE,
        1 => EDGE - 1,
        _ => r.between(-EDGE, EDGE - 1),
    };
    points(random, 7, |r| (one(r), one(r)))
}

/// Long and a few units high: crossings at flat angles creep.
fn sliver(random: &mut Random) -> Vec<(i32, i32)> {
    let (length, height) = (random.between(10, 300), random.between(1, 3));
    let upright = random.once_in(2);
    points(random, 6, |r| {
        let (way, off) = (r.between(0, length), r.between(0, height));
        if upright {
            (off, way)
        } else {
            (way, off)
        }
    })
}

/// From end to end of the grid, a few units high.
fn far_sliver(random: &mut Random) -> Vec<(i32, i32)> {
    let turn = random.between(0, 2);
    points(random, 6, |r| {
        let way = if r.once_in(2) { r.between(-EDGE, -EDGE + 9) } else { r.between(EDGE - 10, EDGE - 1) };
        let off = r.between(-4, 4);
        match turn {
            0 => (way, off),
            1 => (off, way),
            _ => (way, (way + off).clamp(-EDGE, EDGE - 1)),
        }
    })
}

fn medium(random: &mut Random) -> Vec<(i32, i32)> {
    let size = random.between(20, 2000);
    points(random, 16, |r| (r.between(-size, size), r.between(-size, size)))
}

fn one(_: &mut Random) -> i32 {
    1
}

fn few(random: &mut Random) -> i32 {
    random.between(-2, 3)
}

fn limit(random: &mut Random) -> i32 {
    random.pick(&[BIG, BIG - 1, 1 << 30, 1, 0, -1, 1 - (1 << 30), -BIG])
}

/// Segments in any order; some are turned with negated counts, which keeps the outlines closed.
fn mix(random: &mut Random, input: &mut [i32]) {
    let (rows, _) = input.as_chunks_mut::<6>();
    for i in (1..rows.len()).rev() {
        rows.swap(i, random.between(0, i as i32) as usize);
    }
    for [ax, ay, bx, by, s, c] in rows {
        if random.once_in(3) {
            (*ax, *ay, *bx, *by, *s, *c) = (*bx, *by, *ax, *ay, -*s, -*c);
        }
    }
}

/// Ample, or one less, as much, or one more than a run needs.
fn any_room(random: &mut Random, input: &[i32], budget: u32) -> Limits {
    let (mut room, _) = model::needs(input, budget as usize);
    if random.once_in(2) {
        return Limits { segments: room.segments + 20, marks: room.marks + 20, scan: room.scan + 20 };
    }
    let one_of = [&mut room.segments, &mut room.marks, &mut room.scan];
    let need = one_of.into_iter().nth(random.between(0, 2) as usize).unwrap();
    *need = (*need + random.between(0, 2) as usize).saturating_sub(1);
    room
}

/// Something that one of 1 to 6 may be given for.
fn spoil(random: &mut Random, case: &mut Case) {
    let place = random.bits() as usize;
    let rows = case.input.len() / 6;
    match random.between(0, 9) {
        0 => case.settings.n = random.pick(&[rows as u32 + 1, 2049, u32::MAX]),
        1 => case.masks = case.masks.saturating_sub(4),
        2 => case.work = case.work.saturating_sub(6),
        3 => case.settings.fill = random.pick(&[4, 5, u32::MAX]),
        4 => case.settings.rule = random.pick(&[7, 8, u32::MAX]),
        5 => case.settings.budget = random.pick(&[0, 65, u32::MAX]),
        _ if rows == 0 => {}
        6 => case.input[place % rows * 6 + place % 4] = random.pick(&[EDGE, -EDGE - 1, i32::MAX, i32::MIN]),
        7 => {
            let row = place % rows * 6;
            case.input.copy_within(row..row + 2, row + 2);
        }
        8 => case.input[place % rows * 6 + 4 + place % 2] = i32::MIN,
        _ => case.input[place % rows * 6 + place % 6] ^= 1,
    }
}
