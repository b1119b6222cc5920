//! Runs a program on an input and takes what it prints.

use std::ffi::OsStr;
use std::fmt;
use std::io::{ErrorKind, Read, Write};
use std::process::{Child, Command, ExitStatus, Stdio};
use std::sync::mpsc;
use std::thread;
use std::time::{Duration, Instant};

/// A program that takes longer than this is stopped.
const TIME_LIMIT: Duration = Duration::from_secs(30);

/// No more of an output than this is taken.
const OUTPUT_LIMIT: u64 = 65_536;

/// Why there is no output to compare.
#[derive(Clone, Debug, PartialEq, Eq)]
pub enum Fault {
    NotStarted(String),
    Failed(String),
    TooSlow,
}

impl fmt::Display for Fault {
    fn fmt(&self, to: &mut fmt::Formatter<'_>) -> fmt::Result {
        match self {
            Fault::NotStarted(why) => write!(to, "cannot be started: {}", why),
            Fault::Failed(why) => write!(to, "failed: {}", why),
            Fault::TooSlow => write!(to, "did not end within {} s", TIME_LIMIT.as_secs()),
        }
    }
}

/// The program's whole standard output, if it ends well and in time.
pub fn run(program: &OsStr, input: &[u8]) -> Result<Vec<u8>, Fault> {
    let deadline = Instant::now() + TIME_LIMIT;
    let mut child = Command::new(program)
        .stdin(Stdio::piped())
        .stdout(Stdio::piped())
        .stderr(Stdio::null())
        .spawn()
        .map_err(|error| Fault::NotStarted(error.to_string()))?;
    let receiver = feed_and_read(&mut child, input.to_vec());
    let read = receiver.recv_timeout(TIME_LIMIT);
    let status = match (&read, wait_until(&mut child, deadline)) {
        (Ok(_), Some(status)) => status,
        _ => {
            stop(&mut child);
            return Err(Fault::TooSlow);
        }
    };
    if !status.success() {
        return Err(Fault::Failed(status.to_string()));
    }
    match read {
        Ok(Ok(output)) => Ok(output),
        Ok(Err(why)) => Err(Fault::Failed(why)),
        Err(_) => Err(Fault::TooSlow),
    }
}

/// Feeds the input from one thread and reads the output in another, so
/// that neither side waits for a full pipe. The output comes by channel.
fn feed_and_read(child: &mut Child, input: Vec<u8>) -> mpsc::Receiver<Result<Vec<u8>, String>> {
    let mut sink = child.stdin.take().expect("standard input is a pipe");
    let source = child.stdout.take().expect("standard output is a pipe");
    let feeder = thread::spawn(move || match sink.write_all(&input) {
        // A program may stop reading at the limit.
        Err(error) if error.kind() != ErrorKind::BrokenPipe => Err(error.to_string()),
        Err(_) | Ok(()) => Ok(()),
    });
    let (sender, receiver) = mpsc::channel();
    thread::spawn(move || {
        let mut output = Vec::new();
        let read = source.take(OUTPUT_LIMIT).read_to_end(&mut output);
        let fed = feeder.join().unwrap_or_else(|_| Err("the feeder failed".to_string()));
        let outcome = match (fed, read) {
            (Err(why), _) => Err(format!("its input cannot be written: {}", why)),
            (_, Err(error)) => Err(format!("its output cannot be read: {}", error)),
            (Ok(()), Ok(_)) => Ok(output),
        };
        // No one listens any more if the time is over.
        let _ = sender.send(outcome);
    });
    receiver
}

fn wait_until(child: &mut Child, deadline: Instant) -> Option<ExitStatus> {
    loop {
        if let Ok(Some(status)) = child.try_wait() {
            return Some(status);
        }
        if Instant::now() >= deadline {
            return None;
        }
        thread::sleep(Duration::from_micros(100));
    }
}

/// It may have ended meanwhile, so errors do not matter.
fn stop(child: &mut Child) {
    let _ = child.kill();
    let _ = child.wait();
}
