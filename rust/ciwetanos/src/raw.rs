//! The two functions of the library as they are: numbers, and lists that are lent.

use crate::{Edge, Segment};

/// The number of the answer, and after 0 how many segments there are and how many looks were made.
#[repr(C)]
#[derive(Clone, Copy, Debug, PartialEq, Eq)]
pub struct Report {
    pub answer: u64,
    pub segments: u64,
    pub looks: u64,
}

/// How a pair crosses. Answer 0, 1 (not eight numbers), 3 or 4; kind 0 nothing, 1 Pure, 2 TargetEnd, 3 OtherEnd, 4 Overlay.
#[repr(C)]
#[derive(Clone, Copy, Debug, PartialEq, Eq)]
pub struct CrossReport {
    pub answer: u64,
    pub kind: u64,
    pub x: i64,
    pub y: i64,
    pub rounded: u64,
    pub mask: u64,
}

/// The lists that are lent to be written: six numbers a segment, three a mark, three a scan entry, one byte a segment.
#[derive(Clone, Debug, Default, PartialEq, Eq)]
pub struct Lists {
    pub work: Vec<i32>,
    pub marks: Vec<i32>,
    pub scan: Vec<i64>,
    pub masks: Vec<u8>,
}

impl Lists {
    /// Zeros, with room for so many segments, marks and scan entries.
    pub fn with_room(segments: usize, marks: usize, scan: usize) -> Self {
        Lists {
            work: vec![0; 6 * segments],
            marks: vec![0; 3 * marks],
            scan: vec![0; 3 * scan],
            masks: vec![0; segments],
        }
    }

    /// `overlay` with these lists.
    pub fn overlay(&mut self, input: &[i32], n: usize, fill: u32, rule: u32, budget: u32) -> Report {
        let Lists { work, marks, scan, masks } = self;
        overlay(input, n, fill, rule, budget, work, marks, scan, masks)
    }

    /// The first so many segments with their bytes.
    pub fn edges(&self, count: usize) -> Vec<Edge> {
        let segment = |row: &[i32]| Segment { a: (row[0], row[1]), b: (row[2], row[3]), subject: row[4], clip: row[5] };
        let rows = self.work.chunks_exact(6).zip(&self.masks).take(count);
        rows.map(|(row, &byte)| Edge { segment: segment(row), byte }).collect()
    }
}

/// The overlay of the first n segments of the input, six numbers each. 1 to 6 leave the lists, 7 to 11 set them to zero.
#[allow(clippy::too_many_arguments)]
pub fn overlay(
    input: &[i32],
    n: usize,
    fill: u32,
    rule: u32,
    budget: u32,
    work: &mut [i32],
    marks: &mut [i32],
    scan: &mut [i64],
    masks: &mut [u8],
) -> Report {
    // Each pointer goes over with the length of its slice, no two of them overlap, and the library keeps none of them: it is
    // proved to stay within the lists for every argument.
    unsafe {
        ciwetanos_overlay(
            input.as_ptr(),
            input.len(),
            n,
            fill,
            rule,
            budget,
            work.as_mut_ptr(),
            work.len(),
            marks.as_mut_ptr(),
            marks.len(),
            scan.as_mut_ptr(),
            scan.len(),
            masks.as_mut_ptr(),
            masks.len(),
        )
    }
}

/// How two segments cross: target a, b, other a, b, eight numbers.
pub fn cross(pair: &[i32]) -> CrossReport {
    // As above.
    unsafe { ciwetanos_cross(pair.as_ptr(), pair.len()) }
}

extern "C" {
    fn ciwetanos_overlay(
        input: *const i32,
        input_len: usize,
        n: usize,
        fill: u32,
        rule: u32,
        budget: u32,
        work: *mut i32,
        work_len: usize,
        marks: *mut i32,
        marks_len: usize,
        scan: *mut i64,
        scan_len: usize,
        masks: *mut u8,
        masks_len: usize,
    ) -> Report;

    fn ciwetanos_cross(pair: *const i32, pair_len: usize) -> CrossReport;
}
