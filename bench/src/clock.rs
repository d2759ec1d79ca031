//! The clock, and numbers as text.

use std::time::Instant;

pub const RUNS: usize = 9;
pub const LEAST_NANOSECONDS: f64 = 2e6;

/// Nanoseconds of so many calls.
pub fn run(times: usize, f: &mut impl FnMut()) -> f64 {
    let start = Instant::now();
    for _ in 0..times {
        f();
    }
    start.elapsed().as_nanos() as f64
}

/// How many calls take 2 ms at least.
pub fn calls(mut f: impl FnMut()) -> usize {
    let mut times = 1;
    while run(times, &mut f) < LEAST_NANOSECONDS {
        times *= 2;
    }
    times
}

/// A whole number with a comma before every three digits.
pub fn grouped(x: f64) -> String {
    let (sign, x) = if x < 0.0 { ("-", -x) } else { ("", x) };
    let digits = format!("{x:.0}");
    let mut out = String::from(sign);
    for (i, d) in digits.chars().enumerate() {
        if i > 0 && (digits.len() - i) % 3 == 0 {
            out.push(',');
        }
        out.push(d);
    }
    out
}
