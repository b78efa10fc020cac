//! The proved library and the crate, timed side by side in one process: `bench` prints microseconds and the ratio ours / Rust for each row,
//! `bench WORD` for those with the word in their name.
//!
//! `bench count ROW SIDE TIMES` does one row of one side so many times and prints nothing, so that instructions can be counted from outside;
//! `bench rows` prints the names of the rows, `bench memory` the memory of whole runs.

#[cfg(i_overlay)]
mod inputs;
#[cfg(i_overlay)]
mod memory;
#[cfg(i_overlay)]
mod parts;
#[cfg(i_overlay)]
mod rows;

#[cfg(i_overlay)]
#[global_allocator]
static COUNTING: memory::Counting = memory::Counting;

/// So often a row that is counted is made ready, even if it is done fewer times: the difference of two counts is then the work alone.
#[cfg(i_overlay)]
const READY_TIMES: usize = 3;

#[cfg(not(i_overlay))]
fn main() {
    println!("{}", oracle::SKIPPED);
}

#[cfg(i_overlay)]
fn main() {
    let words: Vec<String> = std::env::args().skip(1).collect();
    match words.iter().map(String::as_str).collect::<Vec<_>>()[..] {
        [] => tell(""),
        ["memory"] => memory::tell(),
        ["rows"] => rows::all().iter().for_each(|row| println!("{}", row.name)),
        ["count", name, side, times] => {
            let row = rows::all().into_iter().find(|row| row.name == name).expect("a row of this name");
            let [ours, theirs] = (row.make)();
            let mut part = if side == "ours" { ours } else { theirs };
            let times = times.parse().expect("a whole number");
            for i in 0..READY_TIMES.max(times) {
                part.ready();
                if i < times {
                    std::hint::black_box(part.work());
                }
            }
        }
        [word] => tell(word),
        _ => eprintln!("bench [WORD] | bench rows | bench memory | bench count ROW ours|rust TIMES"),
    }
}

#[cfg(i_overlay)]
fn tell(word: &str) {
    println!("{:40} {:>12} {:>12} {:>8}   result", "", "ours, us", "Rust, us", "ratio");
    rows::all().into_iter().filter(|row| row.name.contains(word)).for_each(rows::Row::tell);
}
