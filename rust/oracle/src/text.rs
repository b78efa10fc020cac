//! Cases as text: whole numbers with white space between them, and nothing else. First the number of cases, then for each case
//!
//! ```text
//! n fill rule budget
//! work marks scan masks            the lengths of the lists, in numbers; each number in them is 7
//! length                           of the input, in numbers
//! a.x a.y b.x b.y subject clip     the input, six numbers a line
//! answer m looks
//! a.x a.y b.x b.y subject clip byte    m lines
//! ```
//!
//! After answer 0 the lists hold these rows and bytes and then zeros; after 1 to 6 all their numbers are still 7, after 7 to 11 zero.

use crate::cases::Case;
use crate::{Lists, Outcome, Settings};
use std::fmt::{self, Display, Formatter};
use std::str::{FromStr, SplitWhitespace};

impl Display for Case {
    fn fmt(&self, f: &mut Formatter) -> fmt::Result {
        let Settings { n, fill, rule, budget } = self.settings;
        writeln!(f, "{n} {fill} {rule} {budget}")?;
        writeln!(f, "{} {} {} {}", self.work, self.marks, self.scan, self.masks)?;
        writeln!(f, "{}", self.input.len())?;
        self.input.chunks(6).try_for_each(|row| writeln!(f, "{}", joined(row)))
    }
}

impl Display for Outcome {
    fn fmt(&self, f: &mut Formatter) -> fmt::Result {
        writeln!(f, "{} {} {}", self.answer, self.m, self.looks)?;
        self.rows().try_for_each(|(row, byte)| writeln!(f, "{} {byte}", joined(row)))
    }
}

fn joined(numbers: &[i32]) -> String {
    let words: Vec<String> = numbers.iter().map(i32::to_string).collect();
    words.join(" ")
}

/// Reads cases one after the other.
pub struct Reader<'a>(SplitWhitespace<'a>);

impl<'a> Reader<'a> {
    pub fn new(text: &'a str) -> Self {
        Reader(text.split_whitespace())
    }

    /// The next number, or what is wrong with it.
    pub fn number<T: FromStr>(&mut self) -> Result<T, String> {
        let word = self.0.next().ok_or("the text ends too early")?;
        word.parse().map_err(|_| format!("'{word}' is not a number that can stand here"))
    }

    pub fn case(&mut self) -> Result<Case, String> {
        let settings =
            Settings { n: self.number()?, fill: self.number()?, rule: self.number()?, budget: self.number()? };
        let [work, marks, scan, masks, length] =
            [self.number()?, self.number()?, self.number()?, self.number()?, self.number()?];
        let input = (0..length).map(|_: usize| self.number()).collect::<Result<_, _>>()?;
        Ok(Case { settings, work, marks, scan, masks, input })
    }

    /// The outcome of a case, with all that its lists then hold.
    pub fn outcome(&mut self, case: &Case) -> Result<Outcome, String> {
        let [answer, m, looks]: [usize; 3] = [self.number()?, self.number()?, self.number()?];
        let mut lists: Lists = case.lists();
        if answer != 0 {
            return Ok(Outcome { m, looks, ..Outcome::refused(answer as u32, lists) });
        }
        lists.clear();
        if 6 * m > lists.work.len() || m > lists.masks.len() {
            return Err(format!("{m} segments do not fit into the lists"));
        }
        for i in 0..m {
            for number in &mut lists.work[6 * i..6 * i + 6] {
                *number = self.number()?;
            }
            lists.masks[i] = self.number()?;
        }
        Ok(Outcome { answer: 0, m, looks, lists })
    }
}
