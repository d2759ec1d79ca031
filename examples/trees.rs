//! Optimises a tree file: it is made flat, optimised in one call, made a tree file again, and its links are resolved.
//!
//!     (cd crates/ivy_c && rt lib) && (cd crates/ivy_files_c && rt lib) && mkdir -p out
//!     rustc -O -L crates/ivy_c/out -L crates/ivy_files_c/out -l static=ivy_c -l static=ivy_files_c -o out/trees-rust examples/trees.rs
//!     out/trees-rust examples/p1-tree.net result.net

#[repr(C)]
struct Answer {
    refusal: u32,
    value: u32,
}

#[repr(C)]
struct Converted {
    refusal: u32,
    length: u64,
}

type Conversion = unsafe extern "C" fn(*const u8, usize, *mut u32, usize, *mut u8, usize) -> Converted;

// As include/ivy.h and include/ivy_files.h declare them.
extern "C" {
    fn ivy_words(nodes: u32, entries: u32, waits: u32) -> u64;
    fn ivy_optimize(nodes: u32, entries: u32, waits: u32, words: *mut u32, n_words: usize, bytes: *mut u8, n_bytes: usize, file: *const u8, n_file: usize, out: *mut u8, n_out: usize) -> Answer;
    fn ivy_flat_from_tree(file: *const u8, n_file: usize, scratch: *mut u32, n_scratch: usize, out: *mut u8, n_out: usize) -> Converted;
    fn ivy_tree_from_flat(file: *const u8, n_file: usize, scratch: *mut u32, n_scratch: usize, out: *mut u8, n_out: usize) -> Converted;
    fn ivy_resolve_tree(file: *const u8, n_file: usize, scratch: *mut u32, n_scratch: usize, out: *mut u8, n_out: usize) -> Converted;
}

const NODES: u32 = 256;
const ENTRIES: u32 = 1024;
const WAITS: u32 = 64;
const SCRATCH_WORDS: usize = 262_144;
const MOST_RESULT: usize = 1 << 20;

/// What a call wrote, or the number that it is refused by; said as it comes.
fn told(call: &str, refusal: u32, length: usize, mut out: Vec<u8>) -> Result<Vec<u8>, u32> {
    if refusal != 0 {
        println!("{call}: refused {refusal}");
        return Err(refusal);
    }
    println!("{call}: {length} bytes");
    out.truncate(length);
    Ok(out)
}

fn converted(call: &str, conversion: Conversion, scratch: &mut [u32], file: &[u8]) -> Result<Vec<u8>, u32> {
    let mut out = vec![0; MOST_RESULT];
    let made = unsafe { conversion(file.as_ptr(), file.len(), scratch.as_mut_ptr(), scratch.len(), out.as_mut_ptr(), out.len()) };
    told(call, made.refusal, made.length as usize, out)
}

fn optimised(file: &[u8]) -> Result<Vec<u8>, u32> {
    let mut words = vec![0u32; unsafe { ivy_words(NODES, ENTRIES, WAITS) } as usize];
    let mut bytes = vec![0u8; file.len()];
    let mut out = vec![0; MOST_RESULT];
    let run = unsafe {
        ivy_optimize(NODES, ENTRIES, WAITS, words.as_mut_ptr(), words.len(), bytes.as_mut_ptr(), bytes.len(), file.as_ptr(), file.len(), out.as_mut_ptr(), out.len())
    };
    told("optimised", run.refusal, run.value as usize, out)
}

fn tree_optimised(file: &[u8]) -> Result<Vec<u8>, u32> {
    let mut scratch = vec![0; SCRATCH_WORDS];
    let flat = converted("flat", ivy_flat_from_tree, &mut scratch, file)?;
    let tree = converted("tree", ivy_tree_from_flat, &mut scratch, &optimised(&flat)?)?;
    converted("resolved", ivy_resolve_tree, &mut scratch, &tree)
}

fn main() -> std::io::Result<()> {
    let names: Vec<String> = std::env::args().skip(1).collect();
    let [file, result] = &names[..] else {
        eprintln!("trees FILE RESULT");
        std::process::exit(2);
    };
    match tree_optimised(&std::fs::read(file)?) {
        Ok(out) => std::fs::write(result, out),
        Err(_) => std::process::exit(1),
    }
}
