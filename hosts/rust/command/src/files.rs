//! Files and the three standard streams.

use std::ffi::OsStr;
use std::fs;
use std::io::{self, ErrorKind, Read, Write};
use std::path::Path;

use crate::Failure;

/// What stands for standard input where a file is asked for.
pub const STANDARD_INPUT: &str = "-";

pub fn read(file: &OsStr) -> Result<Vec<u8>, Failure> {
    let mut bytes = Vec::new();
    let read = if file == STANDARD_INPUT { io::stdin().read_to_end(&mut bytes).map(|_| bytes) } else { fs::read(file) };
    read.map_err(|error| Failure::File(format!("cannot read {}: {error}", file.to_string_lossy())))
}

pub fn write(file: &OsStr, bytes: &[u8]) -> Result<(), Failure> {
    fs::write(file, bytes).map_err(|error| Failure::File(format!("cannot write {}: {error}", file.to_string_lossy())))
}

/// Whoever closes the output has read enough: that is no fault.
pub fn write_output(bytes: &[u8]) -> Result<(), Failure> {
    let mut output = io::stdout().lock();
    match output.write_all(bytes).and_then(|()| output.flush()) {
        Err(error) if error.kind() != ErrorKind::BrokenPipe => Err(Failure::File(format!("cannot write the answer: {error}"))),
        _ => Ok(()),
    }
}

/// One line on standard error; where nobody listens there is nobody to tell.
pub fn say(line: &str) {
    let _ = writeln!(io::stderr(), "{line}");
}

/// The name of a file without its folder and extension.
pub fn name(file: &OsStr) -> String {
    let stem = Path::new(file).file_stem().unwrap_or(file);
    if file == STANDARD_INPUT {
        "input".to_string()
    } else {
        stem.to_string_lossy().into_owned()
    }
}
