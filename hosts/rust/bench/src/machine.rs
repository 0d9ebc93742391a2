//! The machine, in one line.

use std::env::consts::ARCH;
use std::fs;
use std::process::Command;
use std::thread;

/// Processor, number of processors, and the compiler of the twin.
pub fn name() -> String {
    let processor = processor().unwrap_or_else(|| "unknown processor".to_string());
    let processors = thread::available_parallelism().map_or(1, |count| count.get());
    let compiler = Command::new("rustc").arg("--version").output().ok();
    let compiler = compiler.map_or("rustc".to_string(), |output| String::from_utf8_lossy(&output.stdout).trim().to_string());
    format!("{ARCH}, {processor}, {processors} processors, {compiler}")
}

/// x86-64 gives a name, Arm the numbers of its maker and part.
fn processor() -> Option<String> {
    let information = fs::read_to_string("/proc/cpuinfo").ok()?;
    let field = |name: &str| {
        let line = information.lines().find(|line| line.starts_with(name))?;
        Some(line.split_once(':')?.1.trim().to_string())
    };
    field("model name").or_else(|| Some(format!("implementer {} part {}", field("CPU implementer")?, field("CPU part")?)))
}
