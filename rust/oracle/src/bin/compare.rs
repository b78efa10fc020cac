//! Compares the crate with the model on many cases and prints what was compared. `compare [TIMES]` does TIMES as much.

#[cfg(not(i_overlay))]
fn main() {
    println!("{}", oracle::SKIPPED);
}

#[cfg(i_overlay)]
fn main() {
    use oracle::cases;
    use oracle::compare::{kept, Counts, Differences};

    let times: usize = std::env::args().nth(1).map_or(1, |word| word.parse().expect("a whole number"));
    let mut counts = Counts::default();
    let chosen = [cases::samples(300), cases::limits()].concat();
    chosen.iter().for_each(|case| drop(counts.run(case)));
    counts.all_triangles();
    counts.random_runs(1, 200_000 * times);
    counts.long_lists(2, 10 * times);
    counts.all_pairs(5);
    counts.random_pairs(3, 1_000_000 * times);
    counts.random_merges(4, 100_000 * times);

    println!("{} runs, {} looks, no difference; by answer:", counts.runs(), counts.looks);
    counts.answers.iter().enumerate().for_each(|(answer, runs)| println!("  {answer:2} {runs}"));
    println!("{} pairs, {} of them cross, no difference", counts.pairs, counts.crossings);
    println!("{} merges, no difference", counts.merges);
    println!("{} of 112 kept, no difference", kept());

    let found = Differences::count(5, 50_000 * times);
    println!(
        "of {} settled runs, {} differ with sums of 32 bits, {} with the crate's own loop too",
        found.settled, found.narrow, found.own
    );
    println!(
        "of its lists for these and for {} runs refused with 10, a look would mark {}",
        found.refused, found.marked
    );
}
