//! The entry as C sees it (host/tlilcueyoh.h), and a safe way to call it.

extern "C" {
    fn tlilcueyoh_block(
        cipher: u64,
        direction: u64,
        key: *const u8,
        key_len: usize,
        block: *const u8,
        block_len: usize,
        out: *mut u8,
        out_len: usize,
    ) -> u64;
}

pub fn entry(cipher: u64, direction: u64, key: &[u8], block: &[u8], out: &mut [u8]) -> u64 {
    // SAFETY: each pointer and length is those of a live slice, and `out`, borrowed
    // mutably, overlaps neither `key` nor `block`.
    unsafe {
        tlilcueyoh_block(
            cipher,
            direction,
            key.as_ptr(),
            key.len(),
            block.as_ptr(),
            block.len(),
            out.as_mut_ptr(),
            out.len(),
        )
    }
}
