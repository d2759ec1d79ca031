//! The two checkers of the static library, and a plain scan to hold them against.

use crate::clock::{calls, run, RUNS};
use crate::net::TREE;
use std::hint::black_box;

// As include/ivy_check.h declares them: the pointer, and the number of bytes.
extern "C" {
    fn ivy_check_flat(file: *const u8, length: usize) -> u32;
    fn ivy_check_tree(file: *const u8, length: usize) -> u32;
}

/// 0 where the file is accepted, else the number it is refused by.
pub fn check(version: u8, file: &[u8]) -> u32 {
    unsafe {
        match version {
            TREE => ivy_check_tree(file.as_ptr(), file.len()),
            _ => ivy_check_flat(file.as_ptr(), file.len()),
        }
    }
}

/// The sum of all bytes: what it costs to look at each of them once.
#[inline(never)]
pub fn scan(file: &[u8]) -> u64 {
    file.iter().map(|&b| b as u64).sum()
}

/// Nanoseconds of one call.
pub struct Times {
    pub check: f64,
    pub scan: f64,
}

/// The least of nine runs for each file and for its scan. The runs go round: all files once, then all again, so that a busy
/// moment of the machine meets one run of a file and not all nine.
pub fn measure<'a>(files: impl Iterator<Item = (u8, &'a [u8])>) -> Vec<Times> {
    let files: Vec<(u8, &[u8])> = files.collect();
    let one_check = |version: u8, file: &[u8]| {
        black_box(check(version, black_box(file)));
    };
    let one_scan = |file: &[u8]| {
        black_box(scan(black_box(file)));
    };
    let times: Vec<(usize, usize)> = files.iter().map(|&(v, f)| (calls(|| one_check(v, f)), calls(|| one_scan(f)))).collect();
    let mut least: Vec<Times> = files.iter().map(|_| Times { check: f64::MAX, scan: f64::MAX }).collect();
    for _ in 0..RUNS {
        for (i, &(version, file)) in files.iter().enumerate() {
            let (checks, scans) = times[i];
            least[i].check = least[i].check.min(run(checks, &mut || one_check(version, file)) / checks as f64);
            least[i].scan = least[i].scan.min(run(scans, &mut || one_scan(file)) / scans as f64);
        }
    }
    least
}
