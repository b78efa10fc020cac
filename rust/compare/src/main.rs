//! Compares the proved library with the crate on the same inputs and prints what was compared. `compare short` takes about a minute,
//! `compare [TIMES]` does TIMES as much as the full comparison. A difference stops the program and shows the case.

#[cfg(i_overlay)]
mod counts;

#[cfg(not(i_overlay))]
fn main() {
    println!("{}", oracle::SKIPPED);
}

#[cfg(i_overlay)]
fn main() {
    use counts::Counts;
    use oracle::{cases, inputs};

    let word = std::env::args().nth(1);
    let short = word.as_deref() == Some("short");
    let times: usize = word.filter(|_| !short).map_or(1, |word| word.parse().expect("`short` or a whole number"));
    let many = |full: usize| if short { full / 10 } else { full * times };

    let mut counts = Counts::default();
    counts.of("chosen cases, and cases at the limits", |c| {
        [cases::samples(300), cases::limits()].concat().iter().for_each(|case| c.run(case));
    });
    counts.of("every list of at most three segments on 2 by 2 points", |c| {
        inputs::all_short_lists(|case| c.run(case));
    });
    counts.of("every two triangles on 3 by 3 points", |c| inputs::all_triangles(|case| c.run(case)));
    counts.of("random outlines, seed 11", |c| inputs::random_runs(11, many(200_000), |case| c.run(case)));
    counts.of("damaged copies, seed 12", |c| inputs::damaged_copies(12, many(50_000), |case| c.run(case)));
    counts.of("n and room at their limits, seed 13", |c| inputs::near_limits(13, many(10_000), |case| c.run(case)));
    counts.of("some 1,200 segments, seed 14", |c| inputs::long_lists(14, many(20), |case| c.run(case)));
    counts.tell_runs();

    inputs::all_pairs(5, |target, other| counts.pair(target, other));
    inputs::random_pairs(15, many(1_000_000), |target, other, _| counts.pair(target, other));
    counts.refused_pairs(16, many(100_000));
    counts.tell_pairs();
}
