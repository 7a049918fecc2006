//! The product by value: each exported function repeats its calls.

use crate::work::{InWork, COLLECT_BYTES, CONTROL_LENGTH, LOG_BYTES, MEMORY_BYTES};

extern "C" {
    fn bench_calls_in_by_value(
        log: *mut u8,
        log_length: usize,
        window: *const u8,
        window_length: usize,
        data: *const u8,
        data_length: usize,
        trbs: u32,
        transfer_length: u32,
        status: u8,
        completes: bool,
        repeats: u32,
    ) -> u64;

    fn bench_calls_control(
        log: *mut u8,
        log_length: usize,
        collect: *mut u8,
        collect_length: usize,
        window: *const u8,
        window_length: usize,
        data: *const u8,
        data_length: usize,
        transfer_length: u32,
        repeats: u32,
    ) -> u64;
}

/// The log that the calls write, and guest memory, of which the submissions that are timed ask the length alone.
pub struct Lent {
    pub log: Vec<u8>,
    pub memory: Vec<u8>,
}

impl Lent {
    pub fn new() -> Self {
        Self { log: vec![0; LOG_BYTES], memory: vec![0; MEMORY_BYTES] }
    }
}

pub fn in_by_value(lent: &mut Lent, work: &InWork, completes: bool, repeats: u32) -> u64 {
    // SAFETY: each pointer stands with the length of its slice, and the library keeps none of them.
    unsafe {
        bench_calls_in_by_value(
            lent.log.as_mut_ptr(),
            lent.log.len(),
            work.window.as_ptr(),
            work.window.len(),
            work.data.as_ptr(),
            work.data.len(),
            work.trbs,
            work.transfer_length,
            work.status,
            completes,
            repeats,
        )
    }
}

/// Control transfers with their two lent buffers.
pub struct Control {
    lent: Lent,
    collect: Vec<u8>,
}

impl Control {
    pub fn new() -> Self {
        Self { lent: Lent::new(), collect: vec![0; COLLECT_BYTES] }
    }

    pub fn transfer(&mut self, window: &[u8], data: &[u8], repeats: u32) -> u64 {
        // SAFETY: as above.
        unsafe {
            bench_calls_control(
                self.lent.log.as_mut_ptr(),
                self.lent.log.len(),
                self.collect.as_mut_ptr(),
                self.collect.len(),
                window.as_ptr(),
                window.len(),
                data.as_ptr(),
                data.len(),
                CONTROL_LENGTH,
                repeats,
            )
        }
    }
}
