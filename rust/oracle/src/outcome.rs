//! What goes into a run and what comes out of it, for the crate and for the model.

/// a.x, a.y, b.x, b.y, subject count, clip count.
pub type Row = [i32; 6];

#[derive(Clone, Copy, Debug, PartialEq, Eq)]
pub struct Settings {
    pub n: u32,
    pub fill: u32,
    pub rule: u32,
    pub budget: u32,
}

/// The lists that are lent to be written.
#[derive(Clone, Debug, Default, PartialEq, Eq)]
pub struct Lists {
    pub work: Vec<i32>,
    pub marks: Vec<i32>,
    pub scan: Vec<i64>,
    pub masks: Vec<u8>,
}

impl Lists {
    /// Lists of these lengths with a 7 in every place, so that what a run leaves unwritten shows.
    pub fn sevens(work: usize, marks: usize, scan: usize, masks: usize) -> Self {
        Lists { work: vec![7; work], marks: vec![7; marks], scan: vec![7; scan], masks: vec![7; masks] }
    }

    /// Lists with room for so many segments, marks and scan entries.
    pub fn with_room(segments: usize, marks: usize, scan: usize) -> Self {
        Self::sevens(6 * segments, 3 * marks, 3 * scan, segments)
    }

    pub fn clear(&mut self) {
        self.work.fill(0);
        self.marks.fill(0);
        self.scan.fill(0);
        self.masks.fill(0);
    }
}

/// The answer, the number of segments, the looks, and the lists as they then are.
#[derive(Clone, Debug, PartialEq, Eq)]
pub struct Outcome {
    pub answer: u32,
    pub m: usize,
    pub looks: usize,
    pub lists: Lists,
}

impl Outcome {
    /// 1 to 6 leave the lists, the others set them wholly to zero.
    pub fn refused(answer: u32, mut lists: Lists) -> Self {
        if answer > 6 {
            lists.clear();
        }
        Outcome { answer, m: 0, looks: 0, lists }
    }

    /// Answer 0: the rows and then zeros, the bytes and then zeros, marks and scan all zero.
    pub fn settled(rows: &[Row], bytes: &[u8], looks: usize, mut lists: Lists) -> Self {
        lists.clear();
        let numbers = rows.as_flattened();
        lists.work[..numbers.len()].copy_from_slice(numbers);
        lists.masks[..bytes.len()].copy_from_slice(bytes);
        Outcome { answer: 0, m: rows.len(), looks, lists }
    }

    /// The segments in use, each with its byte.
    pub fn rows(&self) -> impl Iterator<Item = (&[i32], u8)> {
        self.lists.work.chunks_exact(6).zip(self.lists.masks.iter().copied()).take(self.m)
    }
}

#[derive(Clone, Copy, Debug, PartialEq, Eq)]
pub enum Kind {
    Pure,
    TargetEnd,
    OtherEnd,
    /// Collinear, with the mask of the ends that mark: target a 1, target b 2, other a 4, other b 8.
    Collinear(u8),
}

/// A crossing, and the marks it makes in the order made: target is segment 0, other is segment 1.
#[derive(Clone, Debug, PartialEq, Eq)]
pub struct Cross {
    pub kind: Kind,
    pub point: (i32, i32),
    pub rounded: bool,
    pub marks: Vec<(usize, i32, i32)>,
}
