//! Lists to time: quadrilaterals on a jittered grid, one in four of the clip, the rest of the subject.

use oracle::cases::outline;
use oracle::random::Random;
use oracle::Row;

const CELL: i32 = 4000;

/// So many segments, a multiple of 4; each outline about `size` hundredths of a cell wide to each side.
pub fn outlines(segments: usize, size: i32) -> Vec<Row> {
    let mut random = Random::new(size as u64);
    let side = ((segments / 4) as f64).sqrt().ceil() as i32;
    let mut input = Vec::new();
    for k in 0..(segments / 4) as i32 {
        let (x, y) = (k % side * CELL, k / side * CELL);
        let reach = CELL / 100 * size;
        let mut far = |share: i32| random.between(reach * share / 4, reach);
        let points =
            [(x - far(3), y + far(0)), (x - far(0), y - far(3)), (x + far(3), y - far(0)), (x + far(0), y + far(3))];
        let (subject, clip) = if k % 4 == 3 { (0, 1) } else { (1, 0) };
        input.extend(outline(&points, subject, clip));
    }
    rows(&input)
}

pub fn rows(numbers: &[i32]) -> Vec<Row> {
    numbers.as_chunks::<6>().0.to_vec()
}

/// Each turned to run forward, in any order.
pub fn forward(rows: &[Row]) -> Vec<Row> {
    rows.iter()
        .map(
            |&[ax, ay, bx, by, s, c]| {
                if (ax, ay) < (bx, by) {
                    [ax, ay, bx, by, s, c]
                } else {
                    [bx, by, ax, ay, -s, -c]
                }
            },
        )
        .collect()
}

/// Turned and in order: what a look is given.
pub fn in_order(rows: &[Row]) -> Vec<Row> {
    let mut rows = forward(rows);
    rows.sort();
    rows
}

/// Pairs of random segments of this size that all cross or all do not.
pub fn pairs(count: usize, size: i32, crossing: bool) -> Vec<[i32; 8]> {
    let mut random = Random::new(size as u64);
    let mut found = Vec::new();
    while found.len() < count {
        let p = [0; 8].map(|_| random.between(-size, size));
        let (t, o) = ([p[0], p[1], p[2], p[3]], [p[4], p[5], p[6], p[7]]);
        if t[..2] != t[2..] && o[..2] != o[2..] && oracle::cross(t, o, 2).is_some() == crossing {
            found.push(p);
        }
    }
    found
}
