//! Runs a program on a script: the script goes to its standard input, all of its standard output is read.

use std::io::{self, BufRead, BufReader, Read, Write};
use std::path::Path;
use std::process::{Child, ChildStdin, ChildStdout, Command, Stdio};
use std::sync::mpsc::{self, Receiver};
use std::thread;
use std::time::Duration;

/// How long a run may take before the program is stopped.
const RUN_LIMIT: Duration = Duration::from_secs(120);
/// How long one answer may take while the input is still open.
const ANSWER_LIMIT: Duration = Duration::from_secs(10);

/// What a run gave.
pub struct Run {
    /// All of standard output.
    pub output: Vec<u8>,
    /// How the program ended.
    pub end: End,
}

/// How a program ended.
#[derive(Clone, PartialEq, Eq, Debug)]
pub enum End {
    /// By itself, with success.
    Well,
    /// Any other way, in words.
    Badly(String),
}

/// Runs both programs on the same script, at the same time.
pub fn run_both(console: &Path, reference: &Path, script: &[u8]) -> Result<[Run; 2], String> {
    thread::scope(|scope| {
        let other = scope.spawn(|| run(reference, script));
        let console = run(console, script)?;
        let reference = other.join().map_err(|_| "a run panicked".to_owned())??;
        Ok([console, reference])
    })
}

/// Gives a program one line and waits for one line, which must come while the input is still open.
pub fn ask(program: &Path, line: &str) -> Result<String, String> {
    let failed = |error: io::Error| format!("{}: {error}", program.display());
    let (mut child, mut input, output) = start(program).map_err(failed)?;
    input.write_all(line.as_bytes()).map_err(failed)?;
    let answer = read_apart(output, |output| {
        let mut answer = Vec::new();
        BufReader::new(output).read_until(b'\n', &mut answer).map(|_| answer)
    })
    .recv_timeout(ANSWER_LIMIT);
    drop(input);
    child.kill().and_then(|()| child.wait()).map_err(failed)?;
    let answer = answer.map_err(|_| format!("{}: no answer to {}", program.display(), line.trim_end()))?;
    String::from_utf8(answer.map_err(failed)?).map_err(|error| format!("{}: {error}", program.display()))
}

/// Runs one program on a script.
fn run(program: &Path, script: &[u8]) -> Result<Run, String> {
    let failed = |error: io::Error| format!("{}: {error}", program.display());
    let (mut child, mut input, output) = start(program).map_err(failed)?;
    let output = read_apart(output, |mut output| {
        let mut bytes = Vec::new();
        output.read_to_end(&mut bytes).map(|_| bytes)
    });
    thread::scope(|scope| {
        // A program that ends before its input does is seen by what it wrote, so a failed write needs no word.
        scope.spawn(move || input.write_all(script));
        collect(&mut child, &output).map_err(failed)
    })
}

/// Starts a program with both ends of its line.
fn start(program: &Path) -> io::Result<(Child, ChildStdin, ChildStdout)> {
    let mut child = Command::new(program)
        .stdin(Stdio::piped())
        .stdout(Stdio::piped())
        .spawn()?;
    match (child.stdin.take(), child.stdout.take()) {
        (Some(input), Some(output)) => Ok((child, input, output)),
        _ => Err(io::Error::other("no line to the program")),
    }
}

/// Reads in a thread of its own, so that there can be a limit to it.
fn read_apart(output: ChildStdout, read: fn(ChildStdout) -> io::Result<Vec<u8>>) -> Receiver<io::Result<Vec<u8>>> {
    let (sender, receiver) = mpsc::channel();
    thread::spawn(move || sender.send(read(output)));
    receiver
}

/// Waits for a program's output and end; stops it after the limit.
fn collect(child: &mut Child, output: &Receiver<io::Result<Vec<u8>>>) -> io::Result<Run> {
    let received = output.recv_timeout(RUN_LIMIT);
    let is_late = received.is_err();
    if is_late {
        child.kill()?;
    }
    let output = received.or_else(|_| output.recv()).map_err(io::Error::other)??;
    let status = child.wait()?;
    let end = if is_late {
        End::Badly(format!("stopped after {} seconds", RUN_LIMIT.as_secs()))
    } else if status.success() {
        End::Well
    } else {
        End::Badly(status.to_string())
    };
    Ok(Run { output, end })
}
