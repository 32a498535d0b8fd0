//! `measure PROGRAM WORD..` runs a program, with the standard input and output that it was given itself, and writes to standard error
//! its status (or the signal that ended it, negative), its processor time in microseconds, and the most KiB that it held.
//!
//! Linux counts what a process held before `exec` too. So a program that is measured has to be begun by a small one.

use std::os::unix::process::ExitStatusExt;
use std::process::{Command, ExitStatus};

/// `struct rusage` of 64-bit Linux: times in seconds and microseconds.
#[repr(C)]
#[derive(Default)]
struct Usage {
    user: [i64; 2],
    system: [i64; 2],
    most_kib: i64,
    others: [i64; 13],
}

unsafe extern "C" {
    fn wait4(process: i32, status: *mut i32, options: i32, usage: *mut Usage) -> i32;
}

fn main() {
    let words: Vec<_> = std::env::args_os().skip(1).collect();
    let child = Command::new(&words[0]).args(&words[1..]).spawn().expect("the program is begun");
    let process = child.id() as i32;
    let mut status = 0;
    let mut usage = Usage::default();
    // SAFETY: both pointers are to values that live until the call is over, and `Usage` has the size that Linux writes.
    let waited = unsafe { wait4(process, &mut status, 0, &mut usage) };
    assert_eq!(waited, process);
    let ended = ExitStatus::from_raw(status);
    let status = ended.code().or(ended.signal().map(|signal| -signal)).expect("it ended");
    let micros = (usage.user[0] + usage.system[0]) * 1_000_000 + usage.user[1] + usage.system[1];
    eprintln!("{status} {micros} {}", usage.most_kib);
}
