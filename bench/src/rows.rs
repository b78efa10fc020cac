//! The rows of the table: a part by the library and the same by the crate.

use crate::inputs::{self, in_order, outlines};
use crate::parts;
use ciwetanos::raw;
use oracle::parts::Parts;
use oracle::{Lists, Row as Numbers, Settings};
use std::time::{Duration, Instant};

/// What is timed, and what is made ready before it outside the clock.
pub trait Part {
    fn ready(&mut self) {}
    /// A number that both sides must agree on.
    fn work(&mut self) -> usize;
}

/// Both sides, made ready only when they are asked for.
pub struct Row {
    pub name: String,
    pub make: Box<dyn FnOnce() -> [Box<dyn Part>; 2]>,
}

const LEAST_TIMES: usize = 15;
const LEAST_TIME: Duration = Duration::from_millis(400);

impl Row {
    fn new<A: Part + 'static, B: Part + 'static>(name: String, make: impl FnOnce() -> (A, B) + 'static) -> Self {
        Row {
            name,
            make: Box::new(|| {
                let (ours, theirs) = make();
                [Box::new(ours), Box::new(theirs)]
            }),
        }
    }

    /// The best of several, taken in turns.
    pub fn tell(self) {
        let [mut our_part, mut their_part] = (self.make)();
        let (mut ours, mut theirs) = (Duration::MAX, Duration::MAX);
        let start = Instant::now();
        let (mut times, mut found) = (0, 0);
        while times < LEAST_TIMES || start.elapsed() < LEAST_TIME {
            let (time, result) = timed(&mut *our_part);
            ours = ours.min(time);
            let (time, expected) = timed(&mut *their_part);
            theirs = theirs.min(time);
            assert_eq!(result, expected, "{}: the results differ", self.name);
            found = result;
            times += 1;
        }
        let micros = |time: Duration| time.as_nanos() as f64 / 1000.0;
        let (ours, theirs) = (micros(ours), micros(theirs));
        println!("{:40} {ours:12.1} {theirs:12.1} {:8.2}   {found}", self.name, ours / theirs);
    }
}

fn timed(part: &mut dyn Part) -> (Duration, usize) {
    part.ready();
    let start = Instant::now();
    let result = part.work();
    (start.elapsed(), std::hint::black_box(result))
}

/// Wholly apart; each across its neighbours; each across many others. As many segments to start with as come to about 512 and to about
/// 2,048 in the end.
pub const RUNS: [(&str, i32, [usize; 2]); 3] =
    [("short scattered", 45, [512, 2048]), ("medium", 80, [148, 560]), ("dense", 200, [60, 156])];

pub fn all() -> Vec<Row> {
    let mut rows = Vec::new();
    for (kind, size, _) in RUNS {
        for n in [512, 2048] {
            rows.push(Row::new(format!("look {n} {kind}"), move || {
                let list = in_order(&outlines(n, size));
                (look(&list), Theirs(Parts::new(&list), |p| p.look(65_536)))
            }));
        }
    }
    for (kind, size, starts) in RUNS {
        for n in starts {
            rows.push(Row::new(format!("run {n} {kind}"), move || {
                let input = outlines(n, size);
                (run(&input), TheirRun { input, lists: lists() })
            }));
        }
    }
    for (kind, size, crossing) in
        [("apart", 1000, false), ("that cross", 1000, true), ("that cross, large", 1 << 30, true)]
    {
        rows.push(Row::new(format!("cross 4096 pairs {kind}"), move || {
            let pairs = inputs::pairs(4096, size - 1, crossing);
            (Cross(pairs.clone()), TheirCross(pairs))
        }));
    }
    rows.push(Row::new("sort 2048".into(), || {
        let list = inputs::forward(&outlines(2048, 80));
        (sort(&list), Theirs(Parts::new(&list), Parts::sort))
    }));
    for (kind, twice) in [("few equal", 64), ("all in pairs", 1024)] {
        rows.push(Row::new(format!("merge 2048 {kind}"), move || {
            let list = outlines(2048, 80);
            let list = in_order(&[&list[..2048 - twice], &list[..twice]].concat());
            (merge(&list), Theirs(Parts::new(&list), Parts::merge))
        }));
    }
    for (kind, size, [_, n]) in RUNS {
        rows.push(Row::new(format!("sweep after run {n} {kind}"), move || {
            let list = settled(&outlines(n, size));
            (sweep(&list), Theirs(Parts::new(&list), |p| p.sweep(1, 3)))
        }));
    }
    // Both ours: all checks of a list that is open at its last outline, against one look at it.
    rows.push(Row::new("checks 1 to 6 of 2048, and one look".into(), || {
        let mut input = outlines(2048, 45);
        let list = in_order(&input);
        input[2047][4] = 2;
        (checks(&input), look(&list))
    }));
    rows
}

// ---- ours

/// A part over the work list, which is given anew each time.
struct Ours<F: FnMut(&mut raw::Lists, usize) -> usize> {
    given: Vec<i32>,
    lists: raw::Lists,
    part: F,
}

impl<F: FnMut(&mut raw::Lists, usize) -> usize> Part for Ours<F> {
    fn ready(&mut self) {
        self.lists.work[..self.given.len()].copy_from_slice(&self.given);
    }

    fn work(&mut self) -> usize {
        (self.part)(&mut self.lists, self.given.len() / 6)
    }
}

fn ours(list: &[Numbers], part: impl FnMut(&mut raw::Lists, usize) -> usize + 'static) -> impl Part {
    let lists = raw::Lists::with_room(2048, 65_536, 2048);
    Ours { given: list.as_flattened().to_vec(), lists, part }
}

fn look(list: &[Numbers]) -> impl Part {
    ours(list, |l, n| parts::look(&l.work, n, &mut l.marks))
}

fn sort(list: &[Numbers]) -> impl Part {
    ours(list, |l, n| usize::from(parts::sort(&mut l.work, n)) * n)
}

fn merge(list: &[Numbers]) -> impl Part {
    ours(list, |l, n| parts::merge(&mut l.work, n))
}

fn sweep(list: &[Numbers]) -> impl Part {
    ours(list, |l, n| usize::from(parts::sweep(&l.work, n, 1, 3, &mut l.scan, &mut l.masks)) * n)
}

fn run(list: &[Numbers]) -> impl Part {
    let input = list.as_flattened().to_vec();
    ours(&[], move |l, _| {
        let report = l.overlay(&input, input.len() / 6, 1, 3, 64);
        assert_eq!(report.answer, 0);
        report.segments as usize
    })
}

/// Refused with 6: no segments, as there are no marks.
fn checks(list: &[Numbers]) -> impl Part {
    let input = list.as_flattened().to_vec();
    ours(&[], move |l, _| {
        let report = l.overlay(&input, input.len() / 6, 1, 3, 64);
        assert_eq!(report.answer, 6);
        report.segments as usize
    })
}

struct Cross(Vec<[i32; 8]>);

impl Part for Cross {
    fn work(&mut self) -> usize {
        total(&self.0, |pair| {
            let r = raw::cross(pair);
            [r.answer, r.kind, r.x as u64, r.y as u64, r.rounded, r.mask]
        })
    }
}

/// All numbers that are told of all pairs, added up in 32 bits.
fn total(pairs: &[[i32; 8]], told: impl Fn(&[i32; 8]) -> [u64; 6]) -> usize {
    pairs.iter().flat_map(told).fold(0u32, |sum, number| sum.wrapping_add(number as u32)) as usize
}

// ---- the crate's

struct Theirs(Parts, fn(&mut Parts) -> usize);

impl Part for Theirs {
    fn ready(&mut self) {
        self.0.ready();
    }

    fn work(&mut self) -> usize {
        (self.1)(&mut self.0)
    }
}

struct TheirCross(Vec<[i32; 8]>);

impl Part for TheirCross {
    fn work(&mut self) -> usize {
        total(&self.0, |pair| {
            let r = oracle::parts::cross(pair);
            [r.answer, r.kind, r.x as u64, r.y as u64, r.rounded, r.mask]
        })
    }
}

struct TheirRun {
    input: Vec<Numbers>,
    lists: Lists,
}

impl Part for TheirRun {
    fn ready(&mut self) {
        self.lists = lists();
    }

    fn work(&mut self) -> usize {
        let settings = Settings { n: self.input.len() as u32, fill: 1, rule: 3, budget: 64 };
        oracle::run(self.input.as_flattened(), settings, std::mem::take(&mut self.lists), false).m
    }
}

fn lists() -> Lists {
    Lists::with_room(2048, 65_536, 2048)
}

/// The list that a run comes to.
fn settled(list: &[Numbers]) -> Vec<Numbers> {
    let settings = Settings { n: list.len() as u32, fill: 1, rule: 3, budget: 64 };
    let outcome = oracle::run(list.as_flattened(), settings, lists(), false);
    assert_eq!(outcome.answer, 0);
    inputs::rows(&outcome.lists.work[..6 * outcome.m])
}
