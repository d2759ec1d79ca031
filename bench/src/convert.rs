//! The conversions and pruning beside the original in Rust, on the same files in one run, as Markdown tables. See docs/BENCHMARKS.md.

mod clock;
mod convert_files;
mod convert_original;
mod convert_ours;
#[allow(dead_code)]
mod net;

use clock::{calls, grouped, run, RUNS};
use convert_files::{cases, Case, CALLS};
use convert_ours::SCRATCH;
use std::hint::black_box;

const ROOM: usize = 1 << 20;

/// The length of the result. Both sides are compared here, before anything is timed; the scratch is left as zeros.
fn compared(case: &Case) -> usize {
    let name = format!("{} {}", case.family, case.size);
    let (mut scratch, mut out) = (vec![7; SCRATCH], vec![170; ROOM]);
    let length = convert_ours::whole(case.call, &case.bytes, &case.entries, &mut scratch, &mut out).unwrap_or_else(|n| panic!("{name}: refused {n}"));
    assert!(out[..length] == convert_original::whole(case.call, &case.bytes, &case.entries), "{name}: another result");
    assert!(out[length..].iter().all(|&b| b == 170), "{name}: written past the result");
    length
}

fn together(mut f: impl FnMut()) -> f64 {
    let times = calls(&mut f);
    run(times, &mut f) / times as f64
}

/// Nanoseconds of the original and of ours, the least of nine runs that go round over all cases.
fn timed(cases: &[Case]) -> Vec<[f64; 2]> {
    let (mut scratch, mut out) = (vec![0; SCRATCH], vec![0; ROOM]);
    let mut least = vec![[f64::MAX; 2]; cases.len()];
    for _ in 0..RUNS {
        for (case, best) in cases.iter().zip(&mut least) {
            let original = together(|| drop(black_box(convert_original::whole(case.call, black_box(&case.bytes), &case.entries))));
            let ours = together(|| {
                let _ = black_box(convert_ours::whole(case.call, black_box(&case.bytes), &case.entries, &mut scratch, &mut out));
            });
            *best = [best[0].min(original), best[1].min(ours)];
        }
    }
    least
}

fn main() {
    let cases = cases();
    let lengths: Vec<usize> = cases.iter().map(compared).collect();
    let times = timed(&cases);
    for (call, name) in CALLS {
        println!("### {name}\n");
        println!("| Family | Size | Bytes | Bytes of the result | Original, ns | Ours, ns | Ours, ns a byte | Ours / original |");
        println!("|---|---:|---:|---:|---:|---:|---:|---:|");
        for ((case, length), [original, ours]) in cases.iter().zip(&lengths).zip(&times) {
            if case.call == call {
                let bytes = case.bytes.len() as f64;
                println!(
                    "| {} | {} | {} | {} | {} | {} | {:.1} | {:.2} |",
                    case.family,
                    grouped(case.size as f64),
                    grouped(bytes),
                    grouped(*length as f64),
                    grouped(*original),
                    grouped(*ours),
                    ours / bytes,
                    ours / original,
                );
            }
        }
        println!();
    }
}
