//! The optimiser of the static library, as include/ivy.h declares it.

#[repr(C)]
struct Answer {
    refusal: u32,
    value: u32,
}

extern "C" {
    fn ivy_words(nodes: u32, entries: u32, waits: u32) -> u64;
    fn ivy_begin(nodes: u32, entries: u32, waits: u32, words: *mut u32, n_words: usize, bytes: *mut u8, n_bytes: usize, file: *const u8, n_file: usize) -> Answer;
    fn ivy_slice(nodes: u32, entries: u32, waits: u32, steps: u32, words: *mut u32, n_words: usize, bytes: *mut u8, n_bytes: usize) -> Answer;
    fn ivy_optimize(nodes: u32, entries: u32, waits: u32, words: *mut u32, n_words: usize, bytes: *mut u8, n_bytes: usize, file: *const u8, n_file: usize, out: *mut u8, n_out: usize) -> Answer;
}

pub const NONE: u32 = u32::MAX;
const MOST: Pools = Pools { nodes: 4096, entries: 16384, waits: 4096 };

#[derive(Clone, Copy)]
pub struct Pools {
    pub nodes: u32,
    pub entries: u32,
    pub waits: u32,
}

#[derive(Clone)]
pub struct Workspace {
    pub pools: Pools,
    pub words: Vec<u32>,
    pub bytes: Vec<u8>,
}

/// The value, or the number of the refusal.
fn answered(answer: Answer) -> Result<u32, u32> {
    match answer.refusal {
        0 => Ok(answer.value),
        n => Err(n),
    }
}

impl Workspace {
    pub fn new(pools: Pools, file: usize) -> Workspace {
        let words = unsafe { ivy_words(pools.nodes, pools.entries, pools.waits) };
        Workspace { pools, words: vec![0; words as usize], bytes: vec![0; file] }
    }

    pub fn begin(&mut self, file: &[u8]) -> Result<u32, u32> {
        let Pools { nodes, entries, waits } = self.pools;
        let (words, bytes) = (&mut self.words, &mut self.bytes);
        answered(unsafe { ivy_begin(nodes, entries, waits, words.as_mut_ptr(), words.len(), bytes.as_mut_ptr(), bytes.len(), file.as_ptr(), file.len()) })
    }

    pub fn slice(&mut self, steps: u32) -> Result<u32, u32> {
        let Pools { nodes, entries, waits } = self.pools;
        let (words, bytes) = (&mut self.words, &mut self.bytes);
        answered(unsafe { ivy_slice(nodes, entries, waits, steps, words.as_mut_ptr(), words.len(), bytes.as_mut_ptr(), bytes.len()) })
    }

    pub fn optimize(&mut self, file: &[u8], out: &mut [u8]) -> Result<u32, u32> {
        let Pools { nodes, entries, waits } = self.pools;
        let (words, bytes) = (&mut self.words, &mut self.bytes);
        answered(unsafe {
            ivy_optimize(nodes, entries, waits, words.as_mut_ptr(), words.len(), bytes.as_mut_ptr(), bytes.len(), file.as_ptr(), file.len(), out.as_mut_ptr(), out.len())
        })
    }

    /// The same words and bytes again.
    pub fn copy_from(&mut self, other: &Workspace) {
        self.words.copy_from_slice(&other.words);
        self.bytes.copy_from_slice(&other.bytes);
    }

    /// The sum of all words and bytes: what it costs to look at each of them once.
    #[inline(never)]
    pub fn scan(&self) -> u64 {
        self.words.iter().map(|&w| w as u64).sum::<u64>() + self.bytes.iter().map(|&b| b as u64).sum::<u64>()
    }
}

/// For each pool the least power of two that suffices, from 16 on, or none where no graft waits.
pub fn pools(file: &[u8], out: &mut [u8]) -> Pools {
    let mut pools = Pools { nodes: 16, entries: 16, waits: 0 };
    loop {
        match Workspace::new(pools, file.len()).optimize(file, out) {
            Err(9) if pools.nodes < MOST.nodes => pools.nodes *= 2,
            Err(10) if pools.entries < MOST.entries => pools.entries *= 2,
            Err(11) if pools.waits < MOST.waits => pools.waits = (2 * pools.waits).max(1),
            Err(n) => panic!("refused {n}"),
            Ok(_) => return pools,
        }
    }
}
