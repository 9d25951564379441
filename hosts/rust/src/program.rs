//! The report program, run as a process of its own.

use std::fs::File;
use std::io::{ErrorKind, Read, Write};
use std::path::{Path, PathBuf};
use std::process::{Child, ChildStdin, Command, Stdio};
use std::sync::mpsc;
use std::thread;
use std::time::Duration;

/// A program that takes longer is ended, and the test fails.
const LONGEST_WAIT: Duration = Duration::from_secs(10);

pub struct Program {
    path: PathBuf,
}

impl Program {
    /// The program that CODREMIF_REPORT names, or the one that `./report` has built. Panics where it is missing.
    pub fn found() -> Program {
        let path = match std::env::var_os("CODREMIF_REPORT") {
            Some(path) => PathBuf::from(path),
            None => Path::new(env!("CARGO_MANIFEST_DIR")).join("../../target/bin/report"),
        };
        assert!(
            path.is_file(),
            "the report program {} is missing: run `./report models/tremor.txt` in the top folder of the repository, or set CODREMIF_REPORT",
            path.display()
        );
        Program { path }
    }

    /// What it prints if it reads `input` from a pipe and then comes to its end.
    pub fn report(&self, input: &[u8]) -> Vec<u8> {
        self.report_in_pieces(&[input], Duration::ZERO)
    }

    /// The same with the input in pieces and a pause before each but the first.
    pub fn report_in_pieces(&self, pieces: &[&[u8]], pause: Duration) -> Vec<u8> {
        let pieces: Vec<Vec<u8>> = pieces.iter().map(|piece| piece.to_vec()).collect();
        self.run(Stdio::piped(), move |mut stdin| {
            for (place, piece) in pieces.iter().enumerate() {
                if place > 0 {
                    thread::sleep(pause);
                }
                if !taken(&mut stdin, piece) {
                    return;
                }
            }
        })
    }

    /// What it prints if `start` and then the byte over and over come from a pipe without end.
    pub fn report_without_end(&self, start: &[u8], byte: u8) -> Vec<u8> {
        let start = start.to_vec();
        self.run(Stdio::piped(), move |mut stdin| {
            let more = [byte; 4096];
            let mut goes_on = taken(&mut stdin, &start);
            while goes_on {
                goes_on = taken(&mut stdin, &more);
            }
        })
    }

    /// What it prints if its standard input is the file.
    pub fn report_on_file(&self, path: &Path) -> Vec<u8> {
        let file = File::open(path).unwrap_or_else(|error| panic!("{}: {error}", path.display()));
        self.run(Stdio::from(file), |_| {})
    }

    /// The threads that feed and read are not waited for once the time is up: a process started by the program may
    /// hold on to the pipes.
    fn run(&self, stdin: Stdio, feed: impl FnOnce(ChildStdin) + Send + 'static) -> Vec<u8> {
        let mut command = Command::new(&self.path);
        command.stdin(stdin).stdout(Stdio::piped()).stderr(Stdio::piped());
        let mut child = command.spawn().unwrap_or_else(|error| panic!("{}: {error}", self.path.display()));
        if let Some(stdin) = child.stdin.take() {
            thread::spawn(move || feed(stdin));
        }
        let Some((stdout, stderr)) = printed_by(&mut child) else {
            child.kill().expect("a process of our own");
            panic!("it did not end within {LONGEST_WAIT:?}");
        };
        let status = child.wait().expect("a process of our own");
        let words = String::from_utf8_lossy(&stderr);
        assert!(status.success() && stderr.is_empty(), "it ended with {status}, stderr: {words}");
        stdout
    }
}

/// What the process writes to standard output and to standard error until it ends; none if that takes too long.
fn printed_by(child: &mut Child) -> Option<(Vec<u8>, Vec<u8>)> {
    let mut stdout = child.stdout.take().expect("a pipe");
    let mut stderr = child.stderr.take().expect("a pipe");
    let (sender, receiver) = mpsc::channel();
    thread::spawn(move || {
        let mut printed = (Vec::new(), Vec::new());
        stdout.read_to_end(&mut printed.0).expect("a pipe");
        stderr.read_to_end(&mut printed.1).expect("a pipe");
        // Nobody waits for it after the time is up.
        let _ = sender.send(printed);
    });
    receiver.recv_timeout(LONGEST_WAIT).ok()
}

/// Whether the process still reads: it may end before it has read all of a long input.
fn taken(stdin: &mut ChildStdin, bytes: &[u8]) -> bool {
    match stdin.write_all(bytes) {
        Ok(()) => true,
        Err(error) if error.kind() == ErrorKind::BrokenPipe => false,
        Err(error) => panic!("its standard input: {error}"),
    }
}
