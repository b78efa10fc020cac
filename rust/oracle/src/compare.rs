//! The crate against the model: whole runs, pairs, merges and the keep decision. A difference is a panic that shows the case.

use crate::cases::{self, Case};
use crate::inputs;
use crate::model;
use crate::random::Random;
use crate::{Outcome, Row};

/// What was compared.
#[derive(Default)]
pub struct Counts {
    /// Runs by answer.
    pub answers: [usize; 12],
    pub looks: usize,
    pub pairs: usize,
    pub crossings: usize,
    pub merges: usize,
}

impl Counts {
    pub fn runs(&self) -> usize {
        self.answers.iter().sum()
    }

    /// One case, by both; the outcome is returned.
    pub fn run(&mut self, case: &Case) -> Outcome {
        let outcome = crate::run(&case.input, case.settings, case.lists(), false);
        let expected = model::run(&case.input, case.settings, case.lists());
        assert!(outcome == expected, "the crate and the model differ on\n{case}crate:\n{outcome}model:\n{expected}");
        self.answers[outcome.answer as usize] += 1;
        self.looks += outcome.looks;
        outcome
    }

    pub fn random_runs(&mut self, seed: u64, runs: usize) {
        inputs::random_runs(seed, runs, |case| drop(self.run(case)));
    }

    pub fn all_triangles(&mut self) {
        inputs::all_triangles(|case| drop(self.run(case)));
    }

    pub fn long_lists(&mut self, seed: u64, runs: usize) {
        inputs::long_lists(seed, runs, |case| drop(self.run(case)));
    }

    /// One pair, at the radius of document 01 and at another.
    pub fn pair(&mut self, target: [i32; 4], other: [i32; 4], radius: u64) {
        for radius in [2, radius] {
            let found = crate::cross(target, other, radius);
            let expected = model::cross(target, other, radius);
            assert_eq!(found, expected, "crate and model on {target:?} with {other:?}, squared radius {radius}");
            self.pairs += 1;
            self.crossings += usize::from(found.is_some());
        }
    }

    pub fn all_pairs(&mut self, size: i32) {
        inputs::all_pairs(size, |target, other| self.pair(target, other, 1));
    }

    /// So many, counting each radius.
    pub fn random_pairs(&mut self, seed: u64, pairs: usize) {
        inputs::random_pairs(seed, pairs / 2, |target, other, radius| self.pair(target, other, radius));
    }

    /// Sorted rows with few different ends, counts small or at the limits.
    pub fn random_merges(&mut self, seed: u64, merges: usize) {
        let mut random = Random::new(seed);
        for _ in 0..merges {
            let size = random.between(1, 4);
            let most = random.pick(&[1, 2, i32::MAX]);
            let mut rows: Vec<Row> = (0..random.between(0, 9))
                .map(|_| {
                    let (s, c) = (random.between(-most, most), random.between(-most, most));
                    [0, random.between(0, size), 1, random.between(0, 1), s, c]
                })
                .collect();
            rows.sort_by(|r, s| r[..4].cmp(&s[..4]));
            assert_eq!(crate::merge(&rows), model::merge(&rows), "crate and model on {rows:?}");
            self.merges += 1;
        }
    }
}

/// How many of the 112 pairs of a rule and a mask are kept, the same by both.
pub fn kept() -> usize {
    let pairs = (0..7).flat_map(|rule| (0..16).map(move |mask| (rule, mask)));
    pairs
        .filter(|(rule, mask)| {
            let kept = crate::keep(*rule, *mask);
            assert_eq!(kept, model::keep(*rule, *mask), "rule {rule}, mask {mask}");
            kept
        })
        .count()
}

/// Where the crate's own ways lead elsewhere than document 01.
#[derive(Default)]
pub struct Differences {
    /// Runs that settle; those of them that come out otherwise with sums of 32 bits; and with the crate's own loop too.
    pub settled: usize,
    pub narrow: usize,
    pub own: usize,
    /// Runs that are refused with 10.
    pub refused: usize,
    /// Lists of the crate's own loop, of both kinds of runs, that a look would still mark.
    pub marked: usize,
}

impl Differences {
    pub fn count(seed: u64, runs: usize) -> Self {
        let mut random = Random::new(seed);
        let mut found = Differences::default();
        for _ in 0..runs {
            found.add(&cases::any(&mut random));
        }
        found
    }

    fn add(&mut self, case: &Case) {
        let run = |narrow| crate::run(&case.input, case.settings, case.lists(), narrow);
        let outcome = run(false);
        match outcome.answer {
            0 => {
                self.settled += 1;
                self.narrow += usize::from(run(true) != outcome);
            }
            10 => self.refused += 1,
            _ => return,
        }
        if let Some((rows, bytes)) = crate::run_as_crate(&case.input, case.settings) {
            let same = outcome.rows().eq(rows.iter().map(|row| &row[..]).zip(bytes));
            self.own += usize::from(outcome.answer == 0 && !same);
            self.marked += usize::from(!model::is_settled(&rows));
        }
    }
}
