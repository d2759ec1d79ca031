//! The conversions and pruning of the static library.

use crate::convert_files::Call;

#[repr(C)]
struct Answer {
    refusal: u32,
    value: u64,
}

extern "C" {
    fn ivy_flat_from_tree(file: *const u8, n_file: usize, scratch: *mut u32, n_scratch: usize, out: *mut u8, n_out: usize) -> Answer;
    fn ivy_tree_from_flat(file: *const u8, n_file: usize, scratch: *mut u32, n_scratch: usize, out: *mut u8, n_out: usize) -> Answer;
    fn ivy_resolve_flat(file: *const u8, n_file: usize, scratch: *mut u32, n_scratch: usize, out: *mut u8, n_out: usize) -> Answer;
    fn ivy_resolve_tree(file: *const u8, n_file: usize, scratch: *mut u32, n_scratch: usize, out: *mut u8, n_out: usize) -> Answer;
    fn ivy_prune(file: *const u8, n_file: usize, entries: *const u32, n_entries: usize, out: *mut u8, n_out: usize) -> Answer;
}

pub const SCRATCH: usize = 262_144;

/// The length of the result, or the number of the refusal.
pub fn whole(call: Call, file: &[u8], entries: &[u32], scratch: &mut [u32], out: &mut [u8]) -> Result<usize, u32> {
    let (f, n) = (file.as_ptr(), file.len());
    let (s, k) = (scratch.as_mut_ptr(), scratch.len());
    let (o, room) = (out.as_mut_ptr(), out.len());
    let answer = unsafe {
        match call {
            Call::FlatFromTree => ivy_flat_from_tree(f, n, s, k, o, room),
            Call::TreeFromFlat => ivy_tree_from_flat(f, n, s, k, o, room),
            Call::ResolveFlat => ivy_resolve_flat(f, n, s, k, o, room),
            Call::ResolveTree => ivy_resolve_tree(f, n, s, k, o, room),
            Call::Prune => ivy_prune(f, n, entries.as_ptr(), entries.len(), o, room),
        }
    };
    match answer.refusal {
        0 => Ok(answer.value as usize),
        n => Err(n),
    }
}
