//! The three proved functions, as `include/cube.h` declares them, and frames for
//! them. `tools/libcube` comes first.

pub mod frame;

/// The strategies' names, by number.
pub const STRATEGIES: [&str; 5] = ["buddy", "Gray", "tree", "extended", "best fit"];

extern "C" {
    fn cube_setup(record: *mut u8, record_len: usize, n: u32) -> u32;
    fn cube_call(
        record: *mut u8,
        record_len: usize,
        frame: *const u8,
        frame_len: usize,
        reply: *mut u8,
        reply_len: usize,
    ) -> u32;
    fn cube_load(record: *const u8, record_len: usize) -> u32;
}

pub fn setup(record: &mut [u8], n: u32) -> u32 {
    // The buffer is lent for the call and nothing else refers to it.
    unsafe { cube_setup(record.as_mut_ptr(), record.len(), n) }
}

pub fn call(record: &mut [u8], frame: &[u8], reply: &mut [u8]) -> u32 {
    // Three buffers that do not overlap, each lent for the call.
    unsafe {
        cube_call(
            record.as_mut_ptr(),
            record.len(),
            frame.as_ptr(),
            frame.len(),
            reply.as_mut_ptr(),
            reply.len(),
        )
    }
}

pub fn load(record: &[u8]) -> u32 {
    // The buffer is lent for the call, which writes nothing to it.
    unsafe { cube_load(record.as_ptr(), record.len()) }
}
