//! Why there is no overlay, and what to mend.

use std::error::Error;
use std::fmt::{self, Display, Formatter};

/// Nothing of a refused list may be loaded. In words, each says what is wrong and what to mend.
#[derive(Clone, Copy, Debug, PartialEq, Eq)]
pub enum Refusal {
    Short,
    BadSettings,
    OffGrid,
    NoLength,
    BadCount,
    Open,
    MarksFull,
    WorkFull,
    TooBig,
    Unsettled,
    ScanFull,
}

impl Refusal {
    /// All of them, in the order of their numbers: the first is 1.
    pub const ALL: [Refusal; 11] = [
        Refusal::Short,
        Refusal::BadSettings,
        Refusal::OffGrid,
        Refusal::NoLength,
        Refusal::BadCount,
        Refusal::Open,
        Refusal::MarksFull,
        Refusal::WorkFull,
        Refusal::TooBig,
        Refusal::Unsettled,
        Refusal::ScanFull,
    ];

    /// The refusal of an answer; 0 is none.
    pub fn of(answer: u64) -> Option<Refusal> {
        let place = usize::try_from(answer).ok()?.checked_sub(1)?;
        Some(*Refusal::ALL.get(place).expect("the library answers 0 to 11"))
    }

    /// Its number, 1 to 11.
    ///
    /// ```
    /// use ciwetanos::Refusal;
    /// assert_eq!(Refusal::Short.number(), 1);
    /// assert_eq!(Refusal::of(11), Some(Refusal::ScanFull));
    /// ```
    pub fn number(self) -> u32 {
        self as u32 + 1
    }
}

impl Display for Refusal {
    fn fmt(&self, f: &mut Formatter) -> fmt::Result {
        f.write_str(match self {
            Refusal::Short => "more than 2,048 segments, or a lent list is too short: split the area, or lend longer lists",
            Refusal::BadSettings => "a rule number or the budget is out of range: fill rule 0 to 3, overlay rule 0 to 6, budget 1 to 64",
            Refusal::OffGrid => "a coordinate lies outside -2^30 to 2^30 - 1: scale or move the map",
            Refusal::NoLength => "a segment begins where it ends: take it out of the export",
            Refusal::BadCount => "a count is -2^31: correct the count",
            Refusal::Open => "an outline is open, at some point what starts is not what ends: close the outline",
            Refusal::MarksFull => "more crossings than the mark list has room for: lend a longer mark list, or split the area",
            Refusal::WorkFull => "the pieces do not fit into the work list: lend a longer work list, or split the area",
            Refusal::TooBig => "equal segments sum to more than 2^31 - 1: look for an outline that was exported many times",
            Refusal::Unsettled => "the edges still cross after the last look allowed: raise the budget; where it is 64 already, remove slivers",
            Refusal::ScanFull => "more edges side by side than the scan list has room for: lend a longer scan list",
        })
    }
}

impl Error for Refusal {}
