//! Runs a program, and tells what it used.

use std::fs::File;
use std::io;
use std::process::{Child, Command, Stdio};
use std::time::Duration;

/// What a program used from its start to its end.
#[derive(Clone, Copy, Debug)]
pub struct Used {
    /// Processor time of the program and of the system for it: waiting for a processor that others
    /// use doesn't count.
    pub time: Duration,
    /// The most memory that was resident.
    pub kilobytes: u64,
}

#[repr(C)]
#[derive(Default)]
struct TimeVal {
    seconds: i64,
    micros: i64,
}

/// Linux's `struct rusage`.
#[repr(C)]
#[derive(Default)]
struct Usage {
    user: TimeVal,
    system: TimeVal,
    most_resident: i64,
    others: [i64; 13],
}

extern "C" {
    fn wait4(pid: i32, status: *mut i32, options: i32, usage: *mut Usage) -> i32;
}

fn wait(child: Child) -> io::Result<Used> {
    let (mut status, mut usage) = (0, Usage::default());
    // SAFETY: both pointers are to live places of the types that Linux fills, and nobody else waits
    // for this child.
    let pid = unsafe { wait4(child.id() as i32, &mut status, 0, &mut usage) };
    if pid < 0 {
        return Err(io::Error::last_os_error());
    }
    if status != 0 {
        return Err(io::Error::other(format!("ended with status {status:#x}")));
    }
    let time =
        |t: TimeVal| Duration::from_secs(t.seconds as u64) + Duration::from_micros(t.micros as u64);
    Ok(Used {
        time: time(usage.user) + time(usage.system),
        kilobytes: usage.most_resident as u64,
    })
}

/// Runs it to its end, with its output in that file. An end by a fault is an error.
pub fn run(command: &mut Command, output: File) -> io::Result<Used> {
    wait(command.stdin(Stdio::null()).stdout(output).spawn()?)
}
