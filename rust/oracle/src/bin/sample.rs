//! Cases with the crate's answers, as text (see `oracle::text`).
//!
//! - `sample [MORE]` prints the chosen cases and MORE random ones (250)
//! - `sample answer FILE` reads cases without answers and prints them with
//! - `sample check FILE` reads cases with answers and makes each run again, by the crate and by the model

use oracle::cases::Case;
use oracle::text::Reader;
use oracle::{cases, model, Outcome};
use std::process::ExitCode;
use std::{env, fs};

fn main() -> ExitCode {
    let words: Vec<String> = env::args().skip(1).collect();
    let words: Vec<&str> = words.iter().map(String::as_str).collect();
    let done = match words[..] {
        [] => print(250),
        ["answer", file] => read(file).and_then(|text| answer(&text)),
        ["check", file] => read(file).and_then(|text| check(&text)),
        [more] if more.parse::<usize>().is_ok() => print(more.parse().unwrap()),
        _ => Err("usage: sample [MORE | answer FILE | check FILE]".into()),
    };
    match done {
        Ok(()) => ExitCode::SUCCESS,
        Err(message) => {
            eprintln!("{message}");
            ExitCode::FAILURE
        }
    }
}

fn read(file: &str) -> Result<String, String> {
    fs::read_to_string(file).map_err(|error| format!("{file}: {error}"))
}

/// The crate's outcome, or None where its files were not found.
#[cfg(i_overlay)]
fn by_crate(case: &Case) -> Option<Outcome> {
    Some(oracle::run(&case.input, case.settings, case.lists(), false))
}

#[cfg(not(i_overlay))]
fn by_crate(_case: &Case) -> Option<Outcome> {
    None
}

fn print(more: usize) -> Result<(), String> {
    print_answered(&cases::samples(more))
}

fn answer(text: &str) -> Result<(), String> {
    let mut reader = Reader::new(text);
    let count: usize = reader.number()?;
    let cases: Vec<Case> = (0..count).map(|_| reader.case()).collect::<Result<_, _>>()?;
    print_answered(&cases)
}

fn print_answered(cases: &[Case]) -> Result<(), String> {
    let outcomes: Option<Vec<Outcome>> = cases.iter().map(by_crate).collect();
    let outcomes = outcomes.ok_or(oracle::SKIPPED)?;
    println!("{}", cases.len());
    cases.iter().zip(outcomes).for_each(|(case, outcome)| print!("\n{case}{outcome}"));
    Ok(())
}

fn check(text: &str) -> Result<(), String> {
    let mut reader = Reader::new(text);
    let count: usize = reader.number()?;
    for number in 1..=count {
        let case = reader.case()?;
        let stored = reader.outcome(&case)?;
        let made = [by_crate(&case), Some(model::run(&case.input, case.settings, case.lists()))];
        if let Some(other) = made.into_iter().flatten().find(|outcome| *outcome != stored) {
            return Err(format!("case {number} is stored as\n{stored}and comes out as\n{other}"));
        }
    }
    let judges = if cfg!(i_overlay) { "the crate and the model answer" } else { "the model answers" };
    println!("{count} cases, each as {judges} it");
    Ok(())
}
