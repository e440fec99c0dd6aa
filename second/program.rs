//! A program that answers a stream: it is started, fed and watched, and its answers are read.

use crate::stream::{self, Record};
use std::io::{self, BufReader, Read, Write};
use std::process::{Child, ChildStdin, ChildStdout, Command, ExitStatus, Stdio};
use std::sync::atomic::{AtomicU64, Ordering};
use std::sync::mpsc::{self, Receiver, RecvTimeoutError, Sender};
use std::sync::{Arc, Mutex};
use std::thread;
use std::time::{Duration, Instant};

/// How many bytes are read or written at once.
const PIECE: usize = 1 << 18;
/// After so long without a byte read or written, the program counts as stuck.
const PATIENCE: Duration = Duration::from_secs(60);

/// The process, and how far the run has come.
#[derive(Clone)]
struct Run {
    child: Arc<Mutex<Child>>,
    moved: Arc<AtomicU64>,
}

impl Run {
    fn advance(&self) {
        self.moved.fetch_add(1, Ordering::Relaxed);
    }

    /// Ends the program, whether or not it has ended already.
    fn end(&self) {
        if let Ok(mut child) = self.child.lock() {
            let _ = child.kill();
            let _ = child.wait();
        }
    }

    /// How the program ended, if it does so within the patience.
    fn status(&self) -> Result<ExitStatus, String> {
        let start = Instant::now();
        while start.elapsed() < PATIENCE {
            let lost = |_| String::from("the program is lost");
            let mut child = self.child.lock().map_err(lost)?;
            match child.try_wait() {
                Ok(Some(status)) => return Ok(status),
                Ok(None) => (),
                Err(error) => return Err(format!("the program cannot be waited for: {error}")),
            }
            drop(child);
            self.advance();
            thread::sleep(Duration::from_millis(5));
        }
        Err(String::from("the program closed its output and does not end"))
    }
}

/// A program that was started. It ends at the latest when this goes.
pub struct Program {
    run: Run,
    from: BufReader<ChildStdout>,
    /// Nothing is sent here; the watching ends when it goes.
    _watched: Sender<()>,
}

impl Drop for Program {
    fn drop(&mut self) {
        self.run.end();
    }
}

impl Program {
    /// Starts a program, feeds it in one thread with all the records, and watches it in another. If
    /// it gets stuck, a line that begins with `place` says so, and everything ends.
    pub fn start(
        words: &[String],
        records: impl Iterator<Item = Record> + Send + 'static,
        place: String,
    ) -> Result<Program, String> {
        let mut child = Command::new(&words[0])
            .args(&words[1..])
            .stdin(Stdio::piped())
            .stdout(Stdio::piped())
            .spawn()
            .map_err(|error| format!("cannot start {}: {error}", words[0]))?;
        let (input, output) = (child.stdin.take(), child.stdout.take());
        let run = Run { child: Arc::new(Mutex::new(child)), moved: Arc::new(AtomicU64::new(0)) };
        let (feeding, watching) = (run.clone(), run.clone());
        let (watched, end) = mpsc::channel();
        let from = match output {
            Some(output) => BufReader::with_capacity(PIECE, output),
            None => return Err(String::from("the program has no output")),
        };
        let program = Program { run, from, _watched: watched };
        let input = input.ok_or("the program has no input")?;
        let no_thread = |error: io::Error| format!("cannot start a thread: {error}");
        thread::Builder::new().spawn(move || feed(&feeding, records, input)).map_err(no_thread)?;
        thread::Builder::new().spawn(move || watch(&watching, &end, &place)).map_err(no_thread)?;
        Ok(program)
    }

    /// Reads until the bytes are full or the answers end, and says how many were read.
    pub fn read(&mut self, bytes: &mut [u8]) -> Result<usize, String> {
        self.run.advance();
        stream::fill(&mut self.from, bytes)
            .map_err(|error| format!("the program's answers cannot be read: {error}"))
    }

    /// How the program ended, in words.
    pub fn ended(&self) -> String {
        match self.run.status() {
            Ok(status) => format!("it ended with {status}"),
            Err(error) => error,
        }
    }

    /// After the last answer the program writes nothing more and ends well.
    pub fn check_end(&mut self) -> Result<(), String> {
        match self.from.read(&mut [0]) {
            Ok(0) => (),
            Ok(_) => return Err(String::from("there are bytes after the last answer")),
            Err(error) => return Err(format!("the program's end cannot be read: {error}")),
        }
        let status = self.run.status()?;
        if status.success() {
            Ok(())
        } else {
            Err(format!("the program ended with {status}"))
        }
    }
}

/// Writes all records to the program. If it reads no more, its answers will tell.
fn feed(run: &Run, records: impl Iterator<Item = Record>, mut to: ChildStdin) {
    let mut bytes = Vec::with_capacity(2 * PIECE);
    for record in records {
        record.encode(&mut bytes);
        if bytes.len() >= PIECE {
            if to.write_all(&bytes).is_err() {
                return;
            }
            run.advance();
            bytes.clear();
        }
    }
    let _ = to.write_all(&bytes);
}

/// Ends everything if nothing moves any more.
fn watch(run: &Run, end: &Receiver<()>, place: &str) {
    let mut last = (run.moved.load(Ordering::Relaxed), Instant::now());
    while end.recv_timeout(Duration::from_millis(500)) == Err(RecvTimeoutError::Timeout) {
        let moved = run.moved.load(Ordering::Relaxed);
        if moved != last.0 {
            last = (moved, Instant::now());
        } else if last.1.elapsed() > PATIENCE {
            let seconds = PATIENCE.as_secs();
            let text = format!("{place}: nothing moved for {seconds} seconds\n");
            let _ = io::stdout().write_all(text.as_bytes());
            run.end();
            std::process::exit(1);
        }
    }
}
