//! The library and the crate on one case or one pair, and what was compared.

use ciwetanos::raw::{self, CrossReport};
use oracle::cases::Case;
use oracle::inputs::is_valid;
use oracle::random::Random;
use oracle::{Kind, Lists, Outcome, Settings};

/// What was compared.
#[derive(Default)]
pub struct Counts {
    /// Runs by answer.
    answers: [usize; 12],
    looks: usize,
    /// Kinds of runs, and how many of each.
    parts: Vec<(&'static str, usize)>,
    /// Pairs by kind: nothing, Pure, TargetEnd, OtherEnd, Overlay.
    kinds: [usize; 5],
    rounded: usize,
    refused: usize,
}

impl Counts {
    /// The runs of one kind.
    pub fn of(&mut self, name: &'static str, runs: impl FnOnce(&mut Self)) {
        let before = self.runs();
        runs(self);
        self.parts.push((name, self.runs() - before));
    }

    fn runs(&self) -> usize {
        self.answers.iter().sum()
    }

    /// One case, by both: the answer, m, looks, and every number of every list.
    pub fn run(&mut self, case: &Case) {
        let expected = oracle::run(&case.input, case.settings, case.lists(), false);
        let outcome = by_library(case);
        assert!(
            outcome == expected,
            "the library and the crate differ on\n{case}library:\n{outcome}crate:\n{expected}\nas lists:\n{outcome:?}\n{expected:?}"
        );
        self.answers[outcome.answer as usize] += 1;
        self.looks += outcome.looks;
    }

    pub fn tell_runs(&self) {
        println!("{} runs, {} looks, no difference", self.runs(), self.looks);
        self.parts.iter().for_each(|(name, runs)| println!("  {runs:7} {name}"));
        println!("by answer");
        self.answers.iter().enumerate().for_each(|(answer, runs)| println!("  {answer:2} {runs}"));
    }

    /// One pair, by both.
    pub fn pair(&mut self, target: [i32; 4], other: [i32; 4]) {
        let report = raw::cross(&[target, other].concat());
        let expected = match oracle::cross(target, other, 2) {
            None => NOTHING,
            Some(c) => {
                let (kind, mask) = match c.kind {
                    Kind::Pure => (1, 0),
                    Kind::TargetEnd => (2, 0),
                    Kind::OtherEnd => (3, 0),
                    Kind::Collinear(mask) => (4, mask.into()),
                };
                let (x, y) = (c.point.0.into(), c.point.1.into());
                CrossReport { answer: 0, kind, x, y, rounded: c.rounded.into(), mask }
            }
        };
        assert_eq!(report, expected, "library and crate on {target:?} with {other:?}");
        self.kinds[report.kind as usize] += 1;
        self.rounded += report.rounded as usize;
    }

    /// Pairs that the crate has no answer for, because it asks its caller to keep them away: 3 off the grid, then 4 without length;
    /// and lists that are not eight numbers, 1.
    pub fn refused_pairs(&mut self, seed: u64, pairs: usize) {
        const EDGE: i32 = 1 << 30;
        let mut random = Random::new(seed);
        for length in (0..20).filter(|length| *length != 8) {
            assert_eq!(raw::cross(&vec![3; length]), CrossReport { answer: 1, ..NOTHING }, "{length} numbers");
            self.refused += 1;
        }
        for _ in 0..pairs {
            let numbers = [0; 8].map(|_| random.pick(&[0, 1, 2, 2, 1, EDGE - 1, EDGE, -EDGE, -EDGE - 1, i32::MIN]));
            let [target, other] = [[0, 1, 2, 3], [4, 5, 6, 7]].map(|places: [usize; 4]| places.map(|k| numbers[k]));
            let answer = match numbers.iter().all(|z| (-EDGE..EDGE).contains(z)) {
                false => 3,
                true if is_valid(&target) && is_valid(&other) => {
                    self.pair(target, other);
                    continue;
                }
                true => 4,
            };
            assert_eq!(raw::cross(&numbers), CrossReport { answer, ..NOTHING }, "{numbers:?}");
            self.refused += 1;
        }
    }

    pub fn tell_pairs(&self) {
        let [nothing, pure, target_end, other_end, overlay] = self.kinds;
        println!("{} pairs, no difference", self.kinds.iter().sum::<usize>());
        println!("  {nothing} do not cross, {pure} Pure, {target_end} TargetEnd, {other_end} OtherEnd, {overlay} Overlay; {} rounded", self.rounded);
        println!("{} pairs refused with 1, 3 or 4, as document 01 says", self.refused);
    }
}

const NOTHING: CrossReport = CrossReport { answer: 0, kind: 0, x: 0, y: 0, rounded: 0, mask: 0 };

/// A list between guards, which must not change.
struct Guarded<T>(Vec<T>);

const GUARD: usize = 8;

impl<T: Copy + PartialEq + From<u8>> Guarded<T> {
    fn new(list: &[T]) -> Self {
        let guard = vec![T::from(77); GUARD];
        Guarded([&guard, list, &guard].concat())
    }

    fn lent(&mut self) -> &mut [T] {
        let end = self.0.len() - GUARD;
        &mut self.0[GUARD..end]
    }

    fn back(mut self) -> Vec<T> {
        let list = self.lent().to_vec();
        let guards = self.0[..GUARD].iter().chain(&self.0[GUARD + list.len()..]);
        assert!(guards.into_iter().all(|x| *x == T::from(77)), "the library wrote beside a list");
        list
    }
}

/// The library's run.
fn by_library(case: &Case) -> Outcome {
    let Settings { n, fill, rule, budget } = case.settings;
    let Lists { work, marks, scan, masks } = case.lists();
    let input = case.input.clone();
    let (mut work, mut marks) = (Guarded::new(&work), Guarded::new(&marks));
    let (mut scan, mut masks) = (Guarded::new(&scan), Guarded::new(&masks));
    let report =
        raw::overlay(&input, n as usize, fill, rule, budget, work.lent(), marks.lent(), scan.lent(), masks.lent());
    assert_eq!(input, case.input, "the library wrote the input");
    let lists = Lists { work: work.back(), marks: marks.back(), scan: scan.back(), masks: masks.back() };
    Outcome { answer: report.answer as u32, m: report.segments as usize, looks: report.looks as usize, lists }
}
