//! `starter PROGRAM WORD ..`: runs a program. In the end the last line of standard error has the processor seconds that it used, and
//! the KB of its greatest memory. The system counts there what a process had before it became the program, so this one is small.
use std::env;
use std::ffi::{OsString, c_int};
use std::process::{self, Command};

/// The system's `struct rusage`: seconds and microseconds of the program, the same of the system, KB of memory, and 13 further counts.
type Usage = [i64; 18];

unsafe extern "C" {
    fn wait4(process: c_int, status: *mut c_int, options: c_int, usage: *mut Usage) -> c_int;
}

fn main() {
    let words: Vec<OsString> = env::args_os().skip(1).collect();
    let child = match words.split_first().map(|(program, words)| Command::new(program).args(words).spawn()) {
        Some(Ok(child)) => child,
        other => {
            eprintln!("starter PROGRAM WORD ..: {other:?}");
            process::exit(1)
        }
    };
    let (mut status, mut usage): (c_int, Usage) = (0, [0; 18]);
    // SAFETY: both are of the size that the system writes, on Linux with 64 bits.
    let waited = unsafe { wait4(child.id() as c_int, &mut status, 0, &mut usage) };
    let [seconds, micros, more_seconds, more_micros, kilobytes, ..] = usage;
    eprintln!("{} {kilobytes}", (seconds + more_seconds) as f64 + (micros + more_micros) as f64 / 1e6);
    process::exit(i32::from(waited < 0 || status != 0));
}
