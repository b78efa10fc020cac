//! Reads a text file of edges and prints those that the rule keeps: `cargo run --example kept FILE`. Without a file: standard input.

use ciwetanos::text::Area;
use std::io::Read;
use std::process::ExitCode;

fn main() -> ExitCode {
    match run() {
        Ok(()) => ExitCode::SUCCESS,
        Err(wrong) => {
            eprintln!("{wrong}");
            ExitCode::FAILURE
        }
    }
}

fn run() -> Result<(), String> {
    let mut text = String::new();
    match std::env::args().nth(1) {
        Some(file) => text = std::fs::read_to_string(&file).map_err(|e| format!("{file}: {e}"))?,
        None => drop(std::io::stdin().read_to_string(&mut text).map_err(|e| e.to_string())?),
    }
    let area: Area = text.parse()?;
    let result = ciwetanos::overlay(&area.segments, area.settings)
        .map_err(|refusal| format!("refused ({}): {refusal}", refusal.number()))?;
    let kept = result.kept().count();
    println!("settled after {} looks: {kept} of {} edges are kept", result.looks, result.edges.len());
    for edge in result.kept() {
        let (a, b) = (edge.segment.a, edge.segment.b);
        println!("{} {} {} {}", a.0, a.1, b.0, b.1);
    }
    Ok(())
}
