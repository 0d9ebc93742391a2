//! The driver's process and its two pipes.

use std::env;
use std::io::{Read, Write};
use std::process::{Child, ChildStdin, ChildStdout, Command, Stdio};

const FAULTS: [(u64, &str); 4] = [
    (1, "bytes before the report were changed"),
    (2, "bytes after the last line were changed"),
    (4, "the log or bytes before it were changed"),
    (8, "words of a table that must be kept, or bytes before it, were changed"),
];

/// Bytes of stack that a call's thread has; one that needs more ends at its guard page.
pub const STACK: u64 = 448 * 1024;
/// The same of a call over lent tables: 64 KiB, and what its thread needs itself.
pub const LENT_STACK: u64 = 80 * 1024;

/// What one call gave back.
#[derive(Clone, Debug, PartialEq, Eq)]
pub struct Replayed {
    /// Status × 4,294,967,296 + bytes written
    pub answer: u64,
    pub report: Vec<u8>,
}

/// The tables that are lent to a call, in words: rows, versions, buckets, lists.
#[derive(Clone, Copy, Debug)]
pub struct Tables {
    pub lengths: [usize; 4],
    /// How many of the first words of each the call may change.
    pub changeable: [usize; 4],
    /// For what stands in them before.
    pub seed: u64,
}

/// A log, the room for its report, and the tables where they are lent.
#[derive(Clone, Copy)]
struct Call<'a> {
    log: &'a [u8],
    room: usize,
    tables: Option<&'a Tables>,
}

impl Call<'_> {
    fn numbers(&self) -> Vec<u64> {
        let mut numbers = vec![self.log.len() as u64, self.room as u64];
        if let Some(Tables { lengths, changeable, seed }) = self.tables {
            numbers.push(*seed);
            numbers.extend(lengths.iter().zip(changeable).flat_map(|(&length, &changeable)| [length as u64, changeable as u64]));
        }
        numbers
    }
}

/// A running driver.
struct Process {
    child: Child,
    to: ChildStdin,
    from: ChildStdout,
}

/// One that calls `toruxeng_replay`.
pub struct Driver {
    process: Process,
}

impl Driver {
    /// Starts the program that TORUXENG_DRIVER names.
    ///
    /// # Panics
    /// Where there is none: a test that needs the engine must not pass without it.
    pub fn start() -> Driver {
        Driver { process: Process::start(&[&STACK.to_string()]) }
    }

    pub fn replay(&mut self, log: &[u8], room: usize) -> Replayed {
        self.replay_together(&[(log, room)]).pop().expect("a call has its answer")
    }

    /// Up to eight calls at the same time, each in its own thread with a stack of [`STACK`] bytes.
    ///
    /// # Panics
    /// Where a call wrote outside its report or after its last line, or the process died.
    pub fn replay_together(&mut self, calls: &[(&[u8], usize)]) -> Vec<Replayed> {
        let calls: Vec<Call> = calls.iter().map(|&(log, room)| Call { log, room, tables: None }).collect();
        self.process.replay(&calls)
    }

    /// How far below its caller's frame the call wrote.
    pub fn stack_touched(&mut self, log: &[u8], room: usize) -> u64 {
        self.process.stack_touched(&Call { log, room, tables: None })
    }
}

/// One that calls `toruxeng_replay_lent`.
pub struct LentDriver {
    process: Process,
}

impl LentDriver {
    /// As [`Driver::start`].
    pub fn start() -> LentDriver {
        LentDriver { process: Process::start(&[&LENT_STACK.to_string(), "lent"]) }
    }

    pub fn replay(&mut self, log: &[u8], room: usize, tables: &Tables) -> Replayed {
        self.replay_together(&[(log, room, *tables)]).pop().expect("a call has its answer")
    }

    /// As [`Driver::replay_together`], each with a stack of [`LENT_STACK`] bytes.
    ///
    /// # Panics
    /// As there, and where a call wrote outside of what it may change of its tables.
    pub fn replay_together(&mut self, calls: &[(&[u8], usize, Tables)]) -> Vec<Replayed> {
        let calls: Vec<Call> = calls.iter().map(|(log, room, tables)| Call { log, room: *room, tables: Some(tables) }).collect();
        self.process.replay(&calls)
    }

    /// As [`Driver::stack_touched`].
    pub fn stack_touched(&mut self, log: &[u8], room: usize, tables: &Tables) -> u64 {
        self.process.stack_touched(&Call { log, room, tables: Some(tables) })
    }
}

impl Process {
    fn start(words: &[&str]) -> Process {
        let program = env::var_os("TORUXENG_DRIVER").expect("TORUXENG_DRIVER names the driver; `hosts/build TARGET` builds it");
        let mut child = Command::new(program)
            .args(words)
            .stdin(Stdio::piped())
            .stdout(Stdio::piped())
            .spawn()
            .expect("the driver that TORUXENG_DRIVER names can be run");
        let to = child.stdin.take().expect("its input is a pipe");
        let from = child.stdout.take().expect("its output is a pipe");
        Process { child, to, from }
    }

    fn replay(&mut self, calls: &[Call]) -> Vec<Replayed> {
        self.request(calls, false);
        calls.iter().map(|call| self.answer(call).0).collect()
    }

    fn stack_touched(&mut self, call: &Call) -> u64 {
        self.request(&[*call], true);
        self.answer(call).1
    }

    fn request(&mut self, calls: &[Call], measured: bool) {
        let numbers = [calls.len() as u64, measured.into()].into_iter().chain(calls.iter().flat_map(Call::numbers));
        let mut request: Vec<u8> = numbers.flat_map(u64::to_le_bytes).collect();
        calls.iter().for_each(|call| request.extend(call.log));
        self.to.write_all(&request).expect("the driver takes a request");
    }

    /// What the call gave back, and the stack that it touched.
    fn answer(&mut self, call: &Call) -> (Replayed, u64) {
        let Call { log, room, tables } = *call;
        let [answer, faults, stack] = [(); 3].map(|_| self.number(log));
        for (fault, what) in FAULTS {
            assert!(faults & fault == 0, "{what}: room {room}, {tables:?}, {}", shown(log));
        }
        let mut report = vec![0; answer as u32 as usize];
        self.from.read_exact(&mut report).expect("the driver sends the report");
        (Replayed { answer, report }, stack)
    }

    fn number(&mut self, log: &[u8]) -> u64 {
        let mut bytes = [0; 8];
        if self.from.read_exact(&mut bytes).is_err() {
            panic!("the driver died ({:?}): {}", self.child.wait(), shown(log));
        }
        u64::from_le_bytes(bytes)
    }
}

fn shown(log: &[u8]) -> String {
    const SHORT: usize = 4096;
    if log.len() <= SHORT {
        format!("log {log:02x?}")
    } else {
        format!("a log of {} bytes; its seed gives it again", log.len())
    }
}

impl Drop for Process {
    fn drop(&mut self) {
        // only this process is ended, and it holds nothing that could be lost
        let _ = self.child.kill();
        let _ = self.child.wait();
    }
}
