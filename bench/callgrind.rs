//! Requests to valgrind's callgrind. Outside of it they do nothing.

use std::arch::asm;
use std::ffi::CString;

const ZERO_STATS: u64 = 0x4354_0001;
const DUMP_STATS_AT: u64 = 0x4354_0003;

fn request(code: u64, argument: u64) {
    let words: [u64; 6] = [code, argument, 0, 0, 0, 0];
    // The instructions by which valgrind knows a request; on the machine itself they leave all as it was.
    unsafe {
        asm!(
            "rol rdi, 3", "rol rdi, 13", "rol rdi, 61", "rol rdi, 51", "xchg rbx, rbx",
            in("rax") &words,
            inout("rdx") 0u64 => _,
        );
    }
}

/// Writes a file with the instructions that the run takes, under this name.
pub fn counted(name: &str, run: impl FnOnce() -> u64) {
    let name = CString::new(name).unwrap();
    request(ZERO_STATS, 0);
    std::hint::black_box(run());
    request(DUMP_STATS_AT, name.as_ptr() as u64);
}
