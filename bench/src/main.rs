//! How long the checkers take, as Markdown tables. See docs/BENCHMARKS.md.

mod clock;
mod files;
mod measure;
mod net;

use clock::grouped;
use files::Case;
use measure::{check, measure, Times};
use net::{FLAT, TREE};

fn answered(answer: u32) -> String {
    match answer {
        0 => "accepted".to_string(),
        n => format!("refused {n}"),
    }
}

fn megabytes_per_second(bytes: usize, ns: f64) -> String {
    grouped(bytes as f64 * 1e3 / ns)
}

fn times(cases: &[Case]) -> Vec<Times> {
    measure(cases.iter().map(|c| (c.version, &c.bytes[..])))
}

fn table(cases: &[Case]) {
    println!("| File | Bytes | Answer | ns a check | MB/s | ns a scan | Check / scan |");
    println!("|---|---:|---|---:|---:|---:|---:|");
    for (case, Times { check, scan }) in cases.iter().zip(times(cases)) {
        let n = case.bytes.len();
        // A file that is refused by its first bytes is not read, so it has no rate.
        let read = check > NOT_READ;
        println!(
            "| {} | {} | {} | {} | {} | {} | {} |",
            case.name,
            grouped(n as f64),
            answered(case.answer),
            grouped(check),
            if read { megabytes_per_second(n, check) } else { String::new() },
            grouped(scan),
            if read { format!("{:.1}", check / scan) } else { String::new() },
        );
    }
    println!();
}

const NOT_READ: f64 = 20.0;

/// The full file's checks one by one: what a fault found late by one check costs beyond a fault found late by the one before.
fn stages() {
    println!("| Fault | Answer | ns | ns more than the line above |");
    println!("|---|---|---:|---:|");
    let cases = files::stages();
    let mut before = 0.0;
    for (case, Times { check, .. }) in cases.iter().zip(times(&cases)) {
        println!("| {} | {} | {} | {} |", case.name, answered(case.answer), grouped(check), grouped(check - before));
        before = check;
    }
    println!();
}

/// ns a byte at each size, and, in brackets, of the bytes that came on top of the size before: there no fixed cost is left.
fn growth() {
    println!("| Family | Sizes | n | 2n | 4n | 8n |");
    println!("|---|---|---:|---:|---:|---:|");
    for (name, cases) in files::families() {
        let sizes: Vec<String> = cases.iter().map(|c| grouped(c.name.parse().unwrap())).collect();
        print!("| {name} | {} |", sizes.join(" / "));
        let mut before: Option<(f64, f64)> = None;
        for (case, Times { check, .. }) in cases.iter().zip(times(&cases)) {
            let bytes = case.bytes.len() as f64;
            match before {
                None => print!(" {:.2} |", check / bytes),
                Some((t, b)) => print!(" {:.2} ({:.2}) |", check / bytes, (check - t) / (bytes - b)),
            }
            before = Some((check, bytes));
        }
        println!();
    }
    println!();
}

/// A file from the disk goes to the checker of its version.
fn read(name: &str) -> Case {
    let bytes = std::fs::read(name).unwrap_or_else(|e| panic!("{name}: {e}"));
    let version = if bytes.get(4) == Some(&TREE) { TREE } else { FLAT };
    Case { name: name.to_string(), version, answer: check(version, &bytes), bytes }
}

/// The files, and a list of them: call, answer, file, name.
fn write(dir: &str) {
    let mut cases = files::legal();
    cases.extend(files::bad());
    cases.extend(files::stages());
    cases.extend(files::families().into_iter().flat_map(|(_, cases)| cases));
    for (i, case) in cases.iter().enumerate() {
        std::fs::write(format!("{dir}/{i}.net"), &case.bytes).unwrap();
        println!("{} {} {i}.net {}", case.version, case.answer, case.name);
    }
}

fn main() {
    let words: Vec<String> = std::env::args().skip(1).collect();
    match words.iter().map(String::as_str).collect::<Vec<_>>()[..] {
        [] => {
            println!("## Legal files\n");
            table(&files::legal());
            println!("## Bad files\n");
            table(&files::bad());
            println!("## Growth\n");
            growth();
            println!("## Check by check\n");
            stages();
        }
        ["--write", dir] => write(dir),
        _ => table(&words.iter().map(|name| read(name)).collect::<Vec<_>>()),
    }
}
