//! The optimiser beside the original in Rust, on the same files in one run, as Markdown tables. See docs/BENCHMARKS.md.

mod clock;
mod families;
#[allow(dead_code)]
mod net;
mod original;
mod ours;

use clock::{calls, grouped, run, LEAST_NANOSECONDS, RUNS};
use families::Case;
use original::Prepared;
use ours::{Workspace, NONE};
use std::hint::black_box;
use std::time::Instant;

const ROOM: usize = 1 << 20;

/// A file with all that is made before the clock starts.
struct Subject {
    case: Case,
    steps: f64,
    prepared: Prepared,
    begun: Workspace,
    half: Workspace,
}

impl Subject {
    /// Results and steps of both sides are compared here, before anything is timed.
    fn new(case: Case) -> Subject {
        let mut out = vec![0; ROOM];
        let pools = ours::pools(&case.bytes, &mut out);
        let mut begun = Workspace::new(pools, case.bytes.len());
        let length = begun.optimize(&case.bytes, &mut out).unwrap() as usize;
        assert!(out[..length] == original::whole(&case.bytes), "{} {}: another result", case.family, case.nodes);
        begun.begin(&case.bytes).unwrap();
        let prepared = Prepared::new(&case.bytes);
        let steps = prepared.steps();
        assert_eq!(begun.clone().slice(NONE), Ok(steps as u32), "{} {}: steps", case.family, case.nodes);
        let mut half = begun.clone();
        half.slice(steps as u32 / 2).unwrap();
        Subject { case, steps: steps as f64, prepared, begun, half }
    }

    fn name(&self) -> String {
        format!("{} | {}", self.case.family, grouped(self.case.nodes as f64))
    }
}

/// Nanoseconds of one call, where something has to be made ready for each call outside the time: calls of 2 ms together.
fn apart<T>(state: &mut T, mut ready: impl FnMut(&mut T), mut f: impl FnMut(&mut T)) -> f64 {
    let (mut spent, mut times) = (0.0, 0);
    while spent < LEAST_NANOSECONDS {
        ready(state);
        let start = Instant::now();
        f(state);
        spent += start.elapsed().as_nanos() as f64;
        times += 1;
    }
    spent / times as f64
}

/// A slice of so many steps, from this image each time.
fn sliced(image: &Workspace, steps: u32) -> f64 {
    apart(
        &mut image.clone(),
        |workspace| workspace.copy_from(image),
        |workspace| {
            let _ = black_box(workspace.slice(steps));
        },
    )
}

/// `optimize` of the original with this limit, on values of its own each time.
fn optimized(prepared: &Prepared, limit: Option<usize>) -> f64 {
    apart(
        &mut (prepared.values(), limit),
        |state| *state = (prepared.values(), limit),
        |(values, left)| prepared.optimize(black_box(values), left),
    )
}

fn together(mut f: impl FnMut()) -> f64 {
    let times = calls(&mut f);
    run(times, &mut f) / times as f64
}

/// The least of nine runs of each measurement, which go round over all subjects.
fn least<const N: usize>(subjects: &[Subject], measure: impl Fn(&Subject) -> [f64; N]) -> Vec<[f64; N]> {
    let mut least = vec![[f64::MAX; N]; subjects.len()];
    for _ in 0..RUNS {
        for (subject, best) in subjects.iter().zip(&mut least) {
            for (best, now) in best.iter_mut().zip(measure(subject)) {
                *best = best.min(now);
            }
        }
    }
    least
}

fn from_file_to_result(subjects: &[Subject]) {
    println!("## From file to result\n");
    println!("| Family | Nodes | Bytes | N, E, W | Steps | Original, ns a step | Ours, ns a step | Ours / original |");
    println!("|---|---:|---:|---|---:|---:|---:|---:|");
    let times = least(subjects, |s| {
        let mut out = vec![0; ROOM];
        let mut workspace = Workspace::new(s.begun.pools, s.case.bytes.len());
        let original = together(|| drop(black_box(original::whole(black_box(&s.case.bytes)))));
        let ours = together(|| {
            let _ = black_box(workspace.optimize(black_box(&s.case.bytes), &mut out));
        });
        [original, ours]
    });
    for (s, [original, ours]) in subjects.iter().zip(times) {
        let p = s.begun.pools;
        println!(
            "| {} | {} | {}, {}, {} | {} | {:.1} | {:.1} | {:.2} |",
            s.name(),
            grouped(s.case.bytes.len() as f64),
            grouped(p.nodes as f64),
            grouped(p.entries as f64),
            p.waits,
            grouped(s.steps),
            original / s.steps,
            ours / s.steps,
            ours / original,
        );
    }
    println!();
}

fn engine_alone(subjects: &[Subject]) {
    println!("## The engine alone\n");
    println!("| Family | Nodes | Steps | Original, ns a step | The same with limit 0 | Ours, ns a step | Ours / original |");
    println!("|---|---:|---:|---:|---:|---:|---:|");
    let times = least(subjects, |s| [optimized(&s.prepared, s.prepared.limit()), optimized(&s.prepared, Some(0)), sliced(&s.begun, NONE)]);
    for (s, [original, idle, ours]) in subjects.iter().zip(times) {
        println!(
            "| {} | {} | {:.1} | {:.1} | {:.1} | {:.2} |",
            s.name(),
            grouped(s.steps),
            original / s.steps,
            idle / s.steps,
            ours / s.steps,
            ours / original,
        );
    }
    println!();
}

fn one_step(subjects: &[Subject]) {
    println!("## Slices of one step\n");
    println!("| Family | Nodes | Words and bytes | ns a slice | ns a scan | Slice / scan |");
    println!("|---|---:|---:|---:|---:|---:|");
    let scanned = |image: &Workspace| {
        together(|| {
            black_box(black_box(image).scan());
        })
    };
    let times = least(subjects, |s| [sliced(&s.half, 1), scanned(&s.half)]);
    for (s, [slice, scan]) in subjects.iter().zip(times) {
        println!(
            "| {} | {} + {} | {} | {} | {:.1} |",
            s.name(),
            grouped(s.half.words.len() as f64),
            grouped(s.half.bytes.len() as f64),
            grouped(slice),
            grouped(scan),
            slice / scan,
        );
    }
    println!();
}

fn main() {
    let subjects: Vec<Subject> = families::cases().into_iter().map(Subject::new).collect();
    from_file_to_result(&subjects);
    engine_alone(&subjects);
    one_step(&subjects);
}
