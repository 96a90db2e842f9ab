//! The stored cases of the vector programs: what each reads on standard input
//! and has to write on standard output. README.md gives the format.

pub mod bits;
mod buffer;
mod call;
mod collect;
pub mod phrases;
mod set;
pub mod show;
mod stdin;
pub mod text;
mod vector;

pub use buffer::{checksums, pattern};
pub use call::Call;
pub use collect::collect;
pub use set::Set;
pub use vector::Vector;

/// The two files of one vector program.
pub struct Files {
    pub stdin: Vec<u8>,
    pub stdout: Vec<u8>,
}

impl Files {
    /// The files of these cases. `add` adds a case to the first and returns its line of the second.
    fn of<T>(cases: &[T], add: impl Fn(&T, &mut Vec<u8>) -> String) -> Files {
        let mut files = Files { stdin: Vec::new(), stdout: Vec::new() };
        for case in cases {
            let line = add(case, &mut files.stdin);
            files.stdout.extend_from_slice(line.as_bytes());
        }
        files
    }

    /// The files with their names.
    pub fn named(&self) -> [(&'static str, &[u8]); 2] {
        [("stdin", &self.stdin), ("stdout", &self.stdout)]
    }
}

/// A line for each file: its name, its length and its checksum.
pub fn table() -> String {
    let mut table = String::new();
    for set in Set::ALL {
        for (name, bytes) in set.files().named() {
            let [length, checksum] = [bytes.len() as u64, fnv_1a(bytes)];
            table += &format!("{}/{name} {length} {checksum:016X}\n", set.crate_name());
        }
    }
    table
}

/// The 64-bit checksum FNV-1a.
fn fnv_1a(bytes: &[u8]) -> u64 {
    bytes.iter().fold(0xCBF2_9CE4_8422_2325, |hash, &byte| {
        (hash ^ u64::from(byte)).wrapping_mul(0x0100_0000_01B3)
    })
}
