//! The single parts of the library as they are exported for timing.

extern "C" {
    fn ciwetanos_sort(work: *mut i32, work_len: usize, n: usize) -> bool;
    fn ciwetanos_merge(work: *mut i32, work_len: usize, n: usize) -> usize;
    fn ciwetanos_look(work: *const i32, work_len: usize, n: usize, marks: *mut i32, marks_len: usize) -> usize;
    fn ciwetanos_sweep(
        work: *const i32,
        work_len: usize,
        n: usize,
        fill: u32,
        rule: u32,
        scan: *mut i64,
        scan_len: usize,
        masks: *mut u8,
        masks_len: usize,
    ) -> u64;
}

// Each pointer goes over with the length of its slice; the functions are proved to stay within.

pub fn sort(work: &mut [i32], n: usize) -> bool {
    unsafe { ciwetanos_sort(work.as_mut_ptr(), work.len(), n) }
}

pub fn merge(work: &mut [i32], n: usize) -> usize {
    unsafe { ciwetanos_merge(work.as_mut_ptr(), work.len(), n) }
}

pub fn look(work: &[i32], n: usize, marks: &mut [i32]) -> usize {
    unsafe { ciwetanos_look(work.as_ptr(), work.len(), n, marks.as_mut_ptr(), marks.len()) }
}

pub fn sweep(work: &[i32], n: usize, fill: u32, rule: u32, scan: &mut [i64], masks: &mut [u8]) -> bool {
    let answer = unsafe {
        ciwetanos_sweep(
            work.as_ptr(),
            work.len(),
            n,
            fill,
            rule,
            scan.as_mut_ptr(),
            scan.len(),
            masks.as_mut_ptr(),
            masks.len(),
        )
    };
    answer == 0
}
