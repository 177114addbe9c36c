//! use: judge FILE
//!
//! Judges the record in a file by the static library of crates/judge. From the top of the repository:
//!
//!     rustc -O examples/judge/judge.rs -L crates/judge/out -L KIT/c -l static=judge -l static=libc_c
use std::process::ExitCode;

/// As in include/mc2_judge.h: a kind and its numbers.
#[repr(C)]
#[derive(Default)]
struct Report {
    kind: u32,
    numbers: [u64; 3],
}

const SOUND: u32 = 0;

unsafe extern "C" {
    fn mc2_audit(text: *const u8, length: usize, report: *mut Report);
}

fn audit(text: &[u8]) -> Report {
    let mut report = Report::default();
    // A slice's pointer is never NULL, and the library keeps no pointer.
    unsafe { mc2_audit(text.as_ptr(), text.len(), &mut report) };
    report
}

fn main() -> ExitCode {
    let file = std::env::args().nth(1).expect("use: judge FILE");
    let report = audit(&std::fs::read(file).expect("the file can't be read"));
    println!("{} {:?}", report.kind, report.numbers);
    ExitCode::from((report.kind != SOUND) as u8)
}
