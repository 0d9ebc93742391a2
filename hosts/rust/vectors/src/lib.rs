//! The hand-made logs of `crates/run_cases/data`, each with the report that document 01 asks for.

use std::fs;
use std::path::Path;

pub struct Vector {
    pub name: String,
    pub log: Vec<u8>,
    pub room: usize,
    pub status: u64,
    pub report: Vec<u8>,
}

/// All of them, in the order of the file.
///
/// # Panics
/// Where the file is missing, is cut, is empty, or has more or fewer vectors than `vectors.txt` names.
pub fn all() -> Vec<Vector> {
    let folder = Path::new(env!("CARGO_MANIFEST_DIR")).join("../../../crates/run_cases/data");
    let words = fs::read_to_string(folder.join("vectors.txt")).expect("the vectors in words");
    let packed = fs::read(folder.join("vectors")).expect("the vectors as bytes");
    let mut rest = &packed[..];
    let vectors: Vec<Vector> =
        words.lines().filter_map(|line| line.strip_prefix("## ")).map(|name| next(name, &mut rest)).collect();
    assert!(!vectors.is_empty() && rest.is_empty(), "each vector has its name, and there are some");
    vectors
}

/// Four numbers of four bytes, the lowest first: log bytes, room, status, report bytes; then the log and the report.
fn next(name: &str, rest: &mut &[u8]) -> Vector {
    let mut number = || u32::from_le_bytes(taken(rest, 4).try_into().expect("four bytes")) as usize;
    let [log, room, status, report] = [number(), number(), number(), number()];
    Vector {
        name: name.to_string(),
        log: taken(rest, log).to_vec(),
        room,
        status: status as u64,
        report: taken(rest, report).to_vec(),
    }
}

fn taken<'a>(rest: &mut &'a [u8], length: usize) -> &'a [u8] {
    let (front, behind) = rest.split_at(length);
    *rest = behind;
    front
}
