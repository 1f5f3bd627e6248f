//! What several tests share, of which not each asks for all.
#![allow(dead_code)]

pub mod numbered;
pub mod panicking;

/// Marsaglia's xorshift.
pub struct Random(pub u64);

impl Random {
    pub fn next(&mut self) -> u64 {
        self.0 ^= self.0 << 13;
        self.0 ^= self.0 >> 7;
        self.0 ^= self.0 << 17;
        self.0
    }

    /// A number that some key may have, or one without a generation, with half of its bits 0 at
    /// least.
    pub fn bits(&mut self) -> u128 {
        let mut wide = || u128::from(self.next()) << 64 | u128::from(self.next());
        wide() & wide() >> 48
    }

    pub fn below(&mut self, count: usize) -> usize {
        ((self.next() >> 11) % count as u64) as usize
    }
}

/// What the system says of the process, as `VmRSS:`.
pub fn kilobytes(name: &str) -> u64 {
    let status = std::fs::read_to_string("/proc/self/status").expect("Linux tells it");
    let line = status
        .lines()
        .find_map(|line| line.strip_prefix(name))
        .expect("it has a line");
    line.split_whitespace()
        .next()
        .and_then(|number| number.parse().ok())
        .expect("it is a number")
}

#[repr(C)]
struct Limit {
    soft: u64,
    hard: u64,
}

/// What Linux limits for a process: its number there, and the line that tells how much the process
/// has.
struct Resource {
    number: i32,
    line: &'static str,
}

impl Resource {
    /// How many bytes the process has of it.
    fn bytes(&self) -> u64 {
        1024 * kilobytes(self.line)
    }
}

const ADDRESS_SPACE: Resource = Resource {
    number: 9,
    line: "VmSize:",
};

/// What may be written to and is no file's, also where it was reserved before.
const DATA: Resource = Resource {
    number: 2,
    line: "VmData:",
};

extern "C" {
    fn getrlimit(resource: i32, limit: *mut Limit) -> i32;
    fn setrlimit(resource: i32, limit: *const Limit) -> i32;
}

/// Runs the call with so many bytes of address space left. The limit is the process's.
pub fn with_bytes_left<R>(bytes: u64, call: impl FnOnce() -> R) -> R {
    with_limit(&ADDRESS_SPACE, ADDRESS_SPACE.bytes() + bytes, call)
}

/// Runs the call with so many bytes left that may be written to. The limit is the process's.
pub fn with_data_left<R>(bytes: u64, call: impl FnOnce() -> R) -> R {
    with_limit(&DATA, DATA.bytes() + bytes, call)
}

/// Runs the call while the process has so many bytes more than it may: it gets none, also once it
/// has given some back. The limit is the process's.
pub fn with_data_owed<R>(bytes: u64, call: impl FnOnce() -> R) -> R {
    with_limit(&DATA, DATA.bytes().saturating_sub(bytes), call)
}

fn with_limit<R>(resource: &Resource, soft: u64, call: impl FnOnce() -> R) -> R {
    let mut old = Limit { soft: 0, hard: 0 };
    // SAFETY: all calls are given a limit that is there.
    unsafe {
        assert_eq!(getrlimit(resource.number, &mut old), 0);
        assert_eq!(
            setrlimit(
                resource.number,
                &Limit {
                    soft,
                    hard: old.hard
                }
            ),
            0
        );
    }
    let done = call();
    // SAFETY: as above.
    unsafe { assert_eq!(setrlimit(resource.number, &old), 0) };
    done
}
