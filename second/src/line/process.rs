//! Runs of the program that is compared, each a process of its own.

use std::io::{self, Read, Write};
use std::process::{Command, Stdio};
use std::time::{Duration, Instant};
use std::{ffi::OsStr, os::unix::ffi::OsStrExt, path::Path, sync::mpsc::channel};

/// A run that takes longer is stopped.
const LIMIT: Duration = Duration::from_secs(300);

/// What a run left.
pub struct Ran {
    pub stdout: Vec<u8>,
    pub stderr: Vec<u8>,
    /// How it ended, where it did not end by itself.
    pub broken: Option<String>,
}

/// Runs a program, by its whole path, in this folder with this input.
pub fn run(program: &Path, folder: &Path, words: &[Vec<u8>], input: &[u8]) -> io::Result<Ran> {
    let mut child = Command::new(program)
        .args(words.iter().map(|word| OsStr::from_bytes(word)))
        .current_dir(folder)
        .stdin(Stdio::piped())
        .stdout(Stdio::piped())
        .stderr(Stdio::piped())
        .spawn()?;
    let mut stdin = child.stdin.take().expect("a pipe to the program");
    let pipes: [Box<dyn Read + Send>; 2] = [
        Box::new(child.stdout.take().expect("a pipe from the program")),
        Box::new(child.stderr.take().expect("a second pipe from the program")),
    ];
    // Each pipe has a thread, so that none of them blocks another.
    std::thread::scope(|scope| {
        // A program may end before it has read all.
        scope.spawn(move || _ = stdin.write_all(input));
        let (done, ends) = channel();
        let readers = pipes.map(|mut pipe| {
            let done = done.clone();
            scope.spawn(move || {
                let mut bytes = Vec::new();
                let read = pipe.read_to_end(&mut bytes);
                // None listens any more where the run was stopped.
                let _ = done.send(());
                read.map(|_| bytes)
            })
        });
        let start = Instant::now();
        let left = || LIMIT.saturating_sub(start.elapsed());
        let ended = (0..2).all(|_| ends.recv_timeout(left()).is_ok());
        if !ended {
            child.kill()?;
        }
        let status = child.wait()?;
        // Which status a program ends with is left free, but not that it ends by itself.
        let broken = match (ended, status.code()) {
            (false, _) => Some(format!("it was stopped after {} s", LIMIT.as_secs())),
            (true, None) => Some(format!("it ended with {status}")),
            (true, Some(_)) => None,
        };
        let [stdout, stderr] = readers.map(|reader| reader.join().expect("the reader ends"));
        Ok(Ran { stdout: stdout?, stderr: stderr?, broken })
    })
}
