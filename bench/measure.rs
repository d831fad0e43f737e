// Runs a command without its output, and prints its processor time in microseconds, its peak memory in bytes, the number
// of its page faults, and the microseconds from its start to its end.
// It is for Linux on 64 bits. It stays small because a new process is charged with the memory of the one that starts it.
use std::process::{exit, Command, Stdio};
use std::time::Instant;

/// The system's `struct rusage`.
#[repr(C)]
#[derive(Default)]
struct Usage {
    user: [i64; 2], // seconds and microseconds
    system: [i64; 2],
    peak: i64, // in units of 1,024 bytes
    unused: [i64; 3],
    faults: i64, // without reading from a disk
    rest: [i64; 9],
}

extern "C" {
    fn getrusage(who: i32, usage: *mut Usage) -> i32;
}
const CHILDREN: i32 = -1;

fn main() {
    let words: Vec<_> = std::env::args_os().skip(1).collect();
    let start = Instant::now();
    let status = Command::new(&words[0]).args(&words[1..]).stdout(Stdio::null()).status();
    if !status.expect("the command can't be started").success() {
        exit(1);
    }
    let elapsed = start.elapsed().as_micros();
    let mut usage = Usage::default();
    if unsafe { getrusage(CHILDREN, &mut usage) } != 0 {
        exit(1);
    }
    let seconds = usage.user[0] + usage.system[0];
    let microseconds = seconds * 1_000_000 + usage.user[1] + usage.system[1];
    println!("{microseconds} {} {} {elapsed}", usage.peak * 1024, usage.faults);
}
