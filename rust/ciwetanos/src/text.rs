//! An area as text: lines that begin with `#` are comments; one line `fill rule budget`; then a line `ax ay bx by subject clip` for each segment.

use crate::{FillRule, Overlay, OverlayRule, Refusal, Segment, Settings};
use std::fmt::Write;
use std::str::FromStr;

/// The segments of a text, and how they are to be laid over each other.
///
/// ```
/// use ciwetanos::text::{answer, Area};
///
/// let area: Area = "# a triangle\n1 0 8\n0 0 5 0 1 0\n5 0 0 5 1 0\n0 5 0 0 1 0\n".parse().unwrap();
/// assert_eq!(answer(&ciwetanos::overlay(&area.segments, area.settings)), "0 3 1\n0 0 0 5 -1 0 18\n0 0 5 0 1 0 17\n0 5 5 0 -1 0 18\n");
/// ```
#[derive(Clone, Debug, PartialEq, Eq)]
pub struct Area {
    pub settings: Settings,
    pub segments: Vec<Segment>,
}

impl FromStr for Area {
    /// What is wrong, with the number of the line.
    type Err = String;

    fn from_str(text: &str) -> Result<Self, String> {
        let lines = text.lines().enumerate().map(|(k, line)| (k + 1, line.trim()));
        let mut lines = lines.filter(|(_, line)| !line.is_empty() && !line.starts_with('#'));
        let (at, first) = lines.next().ok_or("there is no line `fill rule budget`")?;
        let settings = settings(numbers(first)).map_err(|wrong| format!("line {at}: {wrong}"))?;
        let segment = |(at, line)| match numbers(line) {
            Ok([ax, ay, bx, by, subject, clip]) => Ok(Segment { a: (ax, ay), b: (bx, by), subject, clip }),
            Err(wrong) => Err(format!("line {at}: {wrong}")),
        };
        let segments = lines.map(segment).collect::<Result<_, String>>()?;
        Ok(Area { settings, segments })
    }
}

fn settings(numbers: Result<[u32; 3], String>) -> Result<Settings, String> {
    let [fill, rule, budget] = numbers?;
    let wrong = || Refusal::BadSettings.to_string();
    let fill = *FillRule::ALL.get(fill as usize).ok_or_else(wrong)?;
    let rule = *OverlayRule::ALL.get(rule as usize).ok_or_else(wrong)?;
    Ok(Settings { fill, rule, budget })
}

/// Exactly so many numbers.
fn numbers<T: FromStr, const N: usize>(line: &str) -> Result<[T; N], String> {
    let parsed = line.split_whitespace().map(|word| word.parse().map_err(|_| format!("'{word}' cannot stand here")));
    let found: Vec<T> = parsed.collect::<Result<_, _>>()?;
    found.try_into().map_err(|all: Vec<T>| format!("{} numbers, where {N} should be", all.len()))
}

/// The answer as text: `answer m looks`, then a line `ax ay bx by subject clip byte` for each edge.
pub fn answer(result: &Result<Overlay, Refusal>) -> String {
    let mut text = String::new();
    match result {
        Err(refusal) => writeln!(text, "{} 0 0", refusal.number()).unwrap(),
        Ok(Overlay { edges, looks }) => {
            writeln!(text, "0 {} {looks}", edges.len()).unwrap();
            for edge in edges {
                let Segment { a, b, subject, clip } = edge.segment;
                writeln!(text, "{} {} {} {} {subject} {clip} {}", a.0, a.1, b.0, b.1, edge.byte).unwrap();
            }
        }
    }
    text
}
