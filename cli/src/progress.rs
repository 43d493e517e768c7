//! A line about work that takes more than a second, on a terminal and nowhere
//! else.

use std::io::{self, IsTerminal, Write};
use std::sync::mpsc::{self, RecvTimeoutError, Sender};
use std::thread::{self, JoinHandle};
use std::time::{Duration, Instant};

/// How long work is before anything is said, and how often it is said again.
const FIRST: Duration = Duration::from_secs(1);
const AGAIN: Duration = Duration::from_millis(250);

/// The line is there until this is dropped.
pub struct Progress {
    /// None where nobody would see the line.
    shown: Option<(Sender<String>, JoinHandle<()>)>,
}

impl Progress {
    pub fn new() -> Progress {
        let shown = io::stderr().is_terminal().then(|| {
            let (sender, steps) = mpsc::channel();
            (sender, thread::spawn(move || show(&steps)))
        });
        Progress { shown }
    }

    /// What is being done now.
    pub fn now(&self, step: impl Into<String>) {
        if let Some((sender, _)) = &self.shown {
            // The other end is there as long as this one is.
            let _ = sender.send(step.into());
        }
    }
}

impl Drop for Progress {
    fn drop(&mut self) {
        if let Some((sender, thread)) = self.shown.take() {
            drop(sender);
            let _ = thread.join();
        }
    }
}

/// Shows the last step that came, until the sender is gone.
fn show(steps: &mpsc::Receiver<String>) {
    let start = Instant::now();
    let (mut step, mut seen) = (String::new(), false);
    loop {
        let wait = FIRST.saturating_sub(start.elapsed()).max(AGAIN);
        match steps.recv_timeout(wait) {
            Ok(next) => step = next,
            Err(RecvTimeoutError::Disconnected) => break,
            Err(RecvTimeoutError::Timeout) => {}
        }
        if start.elapsed() >= FIRST {
            seen = true;
            line(&format!("{step}: {} s", start.elapsed().as_secs()));
        }
    }
    if seen {
        line("");
    }
}

/// Puts a line over the one before it, no longer than a terminal is wide.
fn line(text: &str) {
    let text: String = text.chars().take(78).collect();
    let _ = write!(io::stderr(), "\r\x1b[K{text}");
}
