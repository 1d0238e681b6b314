//! The program under test, and the ways in which it gets its standard input.

use std::fs::File;
use std::io::{Read, Write};
use std::path::{Path, PathBuf};
use std::process::{Child, ChildStdin, Command, Stdio};
use std::sync::mpsc;
use std::thread;
use std::time::Duration;

/// No trace needs so long.
const PATIENCE: Duration = Duration::from_secs(60);
/// Long enough that the program has most often read a piece before the next one comes.
const PAUSE: Duration = Duration::from_micros(50);
/// How many pieces of an input come with a pause behind them.
const PAUSES: usize = 60;
/// No input comes in many more pieces: each costs two processes a turn.
const PIECES: usize = 10_000;

/// How the input comes.
#[derive(Clone, Copy, Debug)]
pub enum Feed {
    /// From a file, so that each read gets as much as it asks for.
    File,
    /// Through a pipe, in pieces of this many bytes, or more where that makes too many.
    Pieces(usize),
    /// The same, with pauses: lines are cut by the ends of what a read gets.
    Slowly(usize),
}

pub struct Program {
    path: PathBuf,
    scratch: PathBuf,
}

impl Program {
    pub fn new(path: &Path) -> Program {
        let name = format!("splicebell-replay-{}", std::process::id());
        Program { path: path.to_path_buf(), scratch: std::env::temp_dir().join(name) }
    }

    /// What it prints for this input, or why it did not come to its end.
    pub fn output(&self, input: &[u8], feed: Feed) -> Result<Vec<u8>, String> {
        let mut child = self.start(input, feed).map_err(|error| error.to_string())?;
        let (sender, receiver) = mpsc::channel();
        let mut printed = child.stdout.take().expect("it is piped");
        thread::spawn(move || {
            let mut output = Vec::new();
            let read = printed.read_to_end(&mut output).map(|_| output);
            // Nobody listens any more where the patience has ended.
            let _ = sender.send(read);
        });
        thread::scope(|scope| {
            if let Some(stdin) = child.stdin.take() {
                scope.spawn(move || give(stdin, input, feed));
            }
            let read = receiver.recv_timeout(PATIENCE);
            finish(&mut child, read.is_err())?;
            let read = read.map_err(|_| format!("not at its end after {PATIENCE:?}"))?;
            read.map_err(|error| error.to_string())
        })
    }

    fn start(&self, input: &[u8], feed: Feed) -> std::io::Result<Child> {
        let stdin = match feed {
            Feed::File => {
                std::fs::write(&self.scratch, input)?;
                Stdio::from(File::open(&self.scratch)?)
            }
            _ => Stdio::piped(),
        };
        Command::new(&self.path).stdin(stdin).stdout(Stdio::piped()).spawn()
    }
}

impl Drop for Program {
    fn drop(&mut self) {
        // It is not there where no input came from a file.
        let _ = std::fs::remove_file(&self.scratch);
    }
}

/// Waits for its end, and ends it where it has none.
fn finish(child: &mut Child, is_late: bool) -> Result<(), String> {
    if is_late {
        child.kill().map_err(|error| error.to_string())?;
    }
    let status = child.wait().map_err(|error| error.to_string())?;
    if is_late || status.success() {
        Ok(())
    } else {
        Err(format!("ended with {status}"))
    }
}

/// A program whose run has ended at the first line takes no more: that is no fault, its output tells.
fn give(mut stdin: ChildStdin, input: &[u8], feed: Feed) {
    let (size, pauses) = match feed {
        Feed::File => return,
        Feed::Pieces(size) => (size, 0),
        Feed::Slowly(size) => (size, PAUSES),
    };
    let size = size.max(input.len() / PIECES);
    for (number, piece) in input.chunks(size).enumerate() {
        if stdin.write_all(piece).and_then(|()| stdin.flush()).is_err() {
            return;
        }
        if number < pauses {
            thread::sleep(PAUSE);
        }
    }
}
