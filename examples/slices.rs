//! Optimises a net file in slices of one step, as a controller would between two telegrams.
//!
//!     (cd crates/ivy_c && rt lib) && mkdir -p out
//!     rustc -O -L crates/ivy_c/out -l static=ivy_c -o out/slices-rust examples/slices.rs
//!     out/slices-rust examples/p1.net result.net

#[repr(C)]
struct Answer {
    refusal: u32,
    value: u32,
}

// As include/ivy.h declares them.
extern "C" {
    fn ivy_words(nodes: u32, entries: u32, waits: u32) -> u64;
    fn ivy_begin(nodes: u32, entries: u32, waits: u32, words: *mut u32, n_words: usize, bytes: *mut u8, n_bytes: usize, file: *const u8, n_file: usize) -> Answer;
    fn ivy_slice(nodes: u32, entries: u32, waits: u32, steps: u32, words: *mut u32, n_words: usize, bytes: *mut u8, n_bytes: usize) -> Answer;
    fn ivy_finish(nodes: u32, entries: u32, waits: u32, words: *mut u32, n_words: usize, bytes: *mut u8, n_bytes: usize, out: *mut u8, n_out: usize) -> Answer;
}

const NODES: u32 = 256;
const ENTRIES: u32 = 1024;
const WAITS: u32 = 64;
const MOST_RESULT: usize = 1 << 20;

/// A run: the lent words, and the bytes that hold its file.
struct Run {
    words: Vec<u32>,
    bytes: Vec<u8>,
}

/// The value of a call, or the number that it is refused by.
fn answered(answer: Answer) -> Result<u32, u32> {
    match answer.refusal {
        0 => Ok(answer.value),
        number => Err(number),
    }
}

impl Run {
    fn begin(file: &[u8]) -> Result<Run, u32> {
        let n_words = unsafe { ivy_words(NODES, ENTRIES, WAITS) } as usize;
        let mut run = Run { words: vec![0; n_words], bytes: vec![0; file.len()] };
        let (words, bytes) = (run.words.as_mut_ptr(), run.bytes.as_mut_ptr());
        let answer = unsafe { ivy_begin(NODES, ENTRIES, WAITS, words, n_words, bytes, run.bytes.len(), file.as_ptr(), file.len()) };
        answered(answer).map(|_| run)
    }

    /// The steps that were taken: at most so many.
    fn slice(&mut self, steps: u32) -> Result<u32, u32> {
        let (words, bytes) = (self.words.as_mut_ptr(), self.bytes.as_mut_ptr());
        answered(unsafe { ivy_slice(NODES, ENTRIES, WAITS, steps, words, self.words.len(), bytes, self.bytes.len()) })
    }

    fn finish(mut self) -> Result<Vec<u8>, u32> {
        let mut out = vec![0; MOST_RESULT];
        let (words, bytes) = (self.words.as_mut_ptr(), self.bytes.as_mut_ptr());
        let answer = unsafe { ivy_finish(NODES, ENTRIES, WAITS, words, self.words.len(), bytes, self.bytes.len(), out.as_mut_ptr(), out.len()) };
        answered(answer).map(|length| {
            out.truncate(length as usize);
            out
        })
    }
}

fn optimised(file: &[u8]) -> Result<(u32, Vec<u8>), u32> {
    let mut run = Run::begin(file)?;
    let mut steps = 0;
    // Between two slices other work may be done, or the run be given up.
    while run.slice(1)? == 1 {
        steps += 1;
    }
    Ok((steps, run.finish()?))
}

fn main() -> std::io::Result<()> {
    let names: Vec<String> = std::env::args().skip(1).collect();
    let [file, result] = &names[..] else {
        eprintln!("slices FILE RESULT");
        std::process::exit(2);
    };
    match optimised(&std::fs::read(file)?) {
        Ok((steps, out)) => {
            println!("{steps} steps, {} bytes", out.len());
            std::fs::write(result, out)
        }
        Err(number) => {
            println!("refused {number}");
            std::process::exit(1);
        }
    }
}
