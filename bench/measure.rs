//! Runs a program with its text to /dev/null, and prints its status, its processor time in seconds and the most
//! kilobytes of memory that it had. A program of its own, since a child begins with the memory of the one that starts
//! it.
use std::process::{Command, ExitCode, Stdio};

#[repr(C)]
struct Time {
    seconds: i64,
    micros: i64,
}

#[repr(C)]
struct Usage {
    user: Time,
    system: Time,
    most_memory: i64,
    more: [i64; 13],
}

extern "C" {
    fn wait4(child: i32, status: *mut i32, options: i32, usage: *mut Usage) -> i32;
}

fn main() -> ExitCode {
    let words: Vec<String> = std::env::args().skip(1).collect();
    let Some((program, words)) = words.split_first() else {
        return ExitCode::from(2);
    };
    let Ok(child) = Command::new(program).args(words).stdout(Stdio::null()).spawn() else {
        return ExitCode::from(3);
    };
    let zero = || Time {
        seconds: 0,
        micros: 0,
    };
    let mut usage = Usage {
        user: zero(),
        system: zero(),
        most_memory: 0,
        more: [0; 13],
    };
    let mut status = 0;
    // Both are places of this function, and `Usage` is laid out as wait4(2) says for Linux on 64 bits.
    if unsafe { wait4(child.id() as i32, &mut status, 0, &mut usage) } < 0 {
        return ExitCode::from(4);
    }
    let time = usage.user.seconds + usage.system.seconds;
    let micros = usage.user.micros + usage.system.micros;
    println!(
        "{} {:.6} {}",
        status >> 8 & 255,
        time as f64 + micros as f64 / 1e6,
        usage.most_memory
    );
    ExitCode::from(0)
}
