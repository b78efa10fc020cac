//! Many cases and pairs, handed one by one to whatever compares them. The same seed gives the same ones everywhere.

use crate::cases::{self, outline, Case};
use crate::model::Limits;
use crate::random::Random;

const EDGE: i32 = 1 << 30;

/// Random cases of all kinds (`cases::any`).
pub fn random_runs(seed: u64, runs: usize, mut each: impl FnMut(&Case)) {
    let mut random = Random::new(seed);
    for _ in 0..runs {
        each(&cases::any(&mut random));
    }
}

/// Every two triangles on the grid of 3 by 3 points, flat ones too, one subject and one clip; the rules take turns.
pub fn all_triangles(mut each: impl FnMut(&Case)) {
    let points: Vec<(i32, i32)> = (0..9).map(|k| (k / 3, k % 3)).collect();
    let mut triangles = Vec::new();
    for (i, p) in points.iter().enumerate() {
        for (j, q) in points.iter().enumerate().skip(i + 1) {
            for r in &points[j + 1..] {
                triangles.extend([[*p, *q, *r], [*r, *q, *p]]);
            }
        }
    }
    let mut turn = 0;
    for subject in &triangles {
        for clip in &triangles {
            let input = [outline(subject, 1, 0), outline(clip, 0, 1)].concat();
            let ample = Limits { segments: 60, marks: 200, scan: 60 };
            each(&Case::new(input, turn % 4, turn % 7, 64, ample));
            turn += 1;
        }
    }
}

/// Every list of at most three segments on the grid of 2 by 2 points, points and opposite directions too, each subject or clip; the
/// rules and the budget take turns, and so does the room, which is ample, just enough, or too little.
pub fn all_short_lists(mut each: impl FnMut(&Case)) {
    let row = |k: i32| [k & 1, k >> 1 & 1, k >> 2 & 1, k >> 3 & 1, k >> 4 & 1, 1 - (k >> 4 & 1)];
    let mut turn = 0u32;
    for length in 0..4 {
        for list in 0..1 << (5 * length) {
            let input = (0..length).flat_map(|place| row(list >> (5 * place))).collect();
            let room = [(9, 9, 9), (length as usize, 2, 2), (3, 1, 1)][turn as usize % 3];
            let room = Limits { segments: room.0, marks: room.1, scan: room.2 };
            each(&Case::new(input, turn % 4, turn % 7, 1 + turn % 5, room));
            turn += 1;
        }
    }
}

/// Long lists: short scattered triangles, and a few long ones across them.
pub fn long_lists(seed: u64, runs: usize, mut each: impl FnMut(&Case)) {
    let mut random = Random::new(seed);
    for _ in 0..runs {
        let mut input = Vec::new();
        for k in 0..400 {
            let size = if k < 2 { 20_000 } else { 400 };
            let (x, y) = (random.between(0, 20_000), random.between(0, 20_000));
            let near = |r: &mut Random| (x + r.between(-size, size), y + r.between(-size, size));
            let triangle = [near(&mut random), near(&mut random), near(&mut random)];
            input.extend(outline(&triangle, random.between(0, 1), random.between(-1, 1)));
        }
        let most = Limits { segments: 2048, marks: 4096, scan: 2048 };
        let (fill, rule) = (random.between(0, 3) as u32, random.between(0, 6) as u32);
        each(&Case::new(input, fill, rule, 64, most));
    }
}

/// Squares side by side, some crossing their neighbour: n, the work list and the masks a few below, at and above each other and 2,048.
pub fn near_limits(seed: u64, runs: usize, mut each: impl FnMut(&Case)) {
    let mut random = Random::new(seed);
    for _ in 0..runs {
        let far = random.once_in(4);
        let squares = if far { random.between(505, 513) } else { random.between(0, 6) };
        let across = random.between(0, 600);
        let square = |k: i32| {
            let wide = if k == across { 6 } else { 3 };
            outline(&[(4 * k, k), (4 * k + wide, k), (4 * k + wide, k + 2), (4 * k, k + 2)], 1, 0)
        };
        let input: Vec<i32> = (0..squares).flat_map(square).collect();
        let rows = input.len() / 6;
        let mut about = |size: usize| (size as i32 + random.between(-2, 3)).max(0) as usize;
        let room = Limits { segments: about(rows), marks: about(2), scan: about(4) };
        let (n, masks) = (about(rows), about(room.segments));
        let budget = 1 + random.between(0, 3) as u32;
        let mut case = Case::new(input, random.between(0, 3) as u32, random.between(0, 6) as u32, budget, room);
        case.settings.n = if random.once_in(2) { rows as u32 } else { n as u32 };
        case.work += random.between(0, 5) as usize;
        case.masks = if random.once_in(2) { masks } else { case.masks };
        each(&case);
    }
}

/// Chosen cases with one to three numbers of the input damaged: one more or less, a bit turned, an extreme, or another number of the list.
pub fn damaged_copies(seed: u64, runs: usize, mut each: impl FnMut(&Case)) {
    let mut random = Random::new(seed);
    let whole: Vec<Case> = cases::samples(300).into_iter().filter(|case| !case.input.is_empty()).collect();
    for _ in 0..runs {
        let mut case = whole[random.bits() as usize % whole.len()].clone();
        for _ in 0..random.between(1, 3) {
            let place = random.bits() as usize % case.input.len();
            let number = case.input[place];
            case.input[place] = match random.between(0, 4) {
                0 => number.wrapping_add(1),
                1 => number.wrapping_sub(1),
                2 => number ^ 1 << random.between(0, 31),
                3 => random.pick(&[EDGE, EDGE - 1, -EDGE, -EDGE - 1, i32::MIN, -i32::MAX, i32::MAX, 0]),
                _ => case.input[random.bits() as usize % case.input.len()],
            };
        }
        each(&case);
    }
}

/// Every two segments on a square grid, each in both directions.
pub fn all_pairs(size: i32, mut each: impl FnMut([i32; 4], [i32; 4])) {
    let points = || (0..size * size).map(|k| (k / size, k % size));
    let segments: Vec<[i32; 4]> =
        points().flat_map(|a| points().filter(move |b| a != *b).map(move |b| [a.0, a.1, b.0, b.1])).collect();
    for target in &segments {
        for other in &segments {
            each(*target, *other);
        }
    }
}

/// Sides of random outlines, each with each, and a squared radius.
pub fn random_pairs(seed: u64, pairs: usize, mut each: impl FnMut([i32; 4], [i32; 4], u64)) {
    let mut random = Random::new(seed);
    let radii = [0, 1, 4, 64, 2048, 1 << 40];
    let mut made = 0;
    while made < pairs {
        let input = cases::any(&mut random).input;
        let rows = input.chunks_exact(6).map(|row| [row[0], row[1], row[2], row[3]]);
        let rows: Vec<[i32; 4]> = rows.filter(is_valid).collect();
        for target in &rows {
            for other in &rows {
                each(*target, *other, random.pick(&radii));
                made += 1;
            }
        }
    }
}

/// On the grid, and not a point.
pub fn is_valid([ax, ay, bx, by]: &[i32; 4]) -> bool {
    [ax, ay, bx, by].into_iter().all(|z| (-EDGE..EDGE).contains(z)) && (ax, ay) != (bx, by)
}
