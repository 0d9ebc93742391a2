//! What each archive of dist/ defines and asks for: nothing in it can unwind, panic, allocate or keep anything between calls.

use std::fs;
use std::path::{Path, PathBuf};
use std::process::Command;

const TARGETS: [&str; 3] = ["x86_64-unknown-linux-gnu", "aarch64-unknown-linux-gnu", "aarch64-linux-android"];
const SHARED: &str = "aarch64-linux-android/libtoruxeng.so";
const EXPORTED: [&str; 2] = ["toruxeng_replay", "toruxeng_replay_lent"];

fn dist(file: &str) -> PathBuf {
    Path::new(env!("CARGO_MANIFEST_DIR")).join("../../../dist").join(file)
}

fn archives() -> [PathBuf; 3] {
    TARGETS.map(|target| dist(&format!("{target}/libtoruxeng.a")))
}

fn said_by(tool: &str, flags: &[&str], file: &Path) -> String {
    let output = Command::new(tool).args(flags).arg(file).output().unwrap_or_else(|error| panic!("{tool}: {error}"));
    assert!(output.status.success(), "{tool}: {}", String::from_utf8_lossy(&output.stderr));
    String::from_utf8(output.stdout).expect("names are text")
}

/// The names that `nm` lists with these flags.
fn symbols(flags: &[&str], file: &Path) -> Vec<String> {
    let listed = said_by("nm", &[flags, &["--format=posix"]].concat(), file);
    // a line of the member's name ends in a colon and has no type
    let name = |line: &str| line.split_once(' ').map(|(name, _)| name.to_string());
    listed.lines().filter(|line| !line.ends_with(':')).filter_map(name).collect()
}

fn count(bytes: &[u8], part: &str) -> usize {
    bytes.windows(part.len()).filter(|window| *window == part.as_bytes()).count()
}

#[test]
fn exports_two_functions() {
    for archive in archives() {
        assert_eq!(symbols(&["--defined-only", "--extern-only"], &archive), EXPORTED);
    }
    assert_eq!(symbols(&["--dynamic", "--defined-only"], &dist(SHARED)), EXPORTED);
}

#[test]
fn asks_for_memset_alone() {
    for archive in archives() {
        assert_eq!(symbols(&["--undefined-only"], &archive), ["memset"]);
    }
    assert_eq!(symbols(&["--dynamic", "--undefined-only"], &dist(SHARED)), ["memset"]);
}

#[test]
fn has_nothing_to_unwind_and_no_state() {
    for file in archives().into_iter().chain([dist(SHARED)]) {
        let bytes = fs::read(&file).expect("the archive can be read");
        for section in [".eh_frame", ".gcc_except_table", ".init_array", ".bss", ".tdata", ".tbss"] {
            assert_eq!(count(&bytes, section), 0, "{section} of {}", file.display());
        }
        // the linker's read-only data has a name of the same start
        assert_eq!(count(&bytes, ".data"), count(&bytes, ".data.rel.ro"), "{}", file.display());
    }
}

#[test]
fn each_is_for_the_target_it_is_named_by() {
    const MACHINE: std::ops::Range<usize> = 18..20;
    const X86_64: [u8; 2] = [62, 0];
    const AARCH64: [u8; 2] = [183, 0];
    for (archive, target) in archives().into_iter().zip(TARGETS) {
        let bytes = fs::read(&archive).expect("the archive can be read");
        let object = bytes.windows(4).position(|window| window == b"\x7fELF").expect("it has an object");
        let expected = if target.starts_with("x86_64") { X86_64 } else { AARCH64 };
        assert_eq!(bytes[object..][MACHINE], expected, "{target}");
    }
}

#[test]
fn the_shared_object_is_laid_out_for_pages_of_16_kib() {
    let headers = said_by("readelf", &["--program-headers", "--wide"], &dist(SHARED));
    let loaded: Vec<&str> = headers.lines().filter(|line| line.trim_start().starts_with("LOAD")).collect();
    assert_eq!(loaded.len(), 3);
    assert!(loaded.iter().all(|line| line.trim_end().ends_with("0x4000")), "{headers}");
    let needed = said_by("readelf", &["--dynamic"], &dist(SHARED));
    let needed: Vec<&str> = needed.lines().filter(|line| line.contains("(NEEDED)")).collect();
    assert!(matches!(needed[..], [only] if only.contains("[libc.so]")), "{needed:?}");
    assert!(!said_by("readelf", &["--dynamic"], &dist(SHARED)).contains("TEXTREL"));
}
