//! Our own side: a program that speaks the line protocol, or the static library that ships.
#[cfg(feature = "library")]
mod any_content;
#[cfg(feature = "library")]
mod directory;
#[cfg(feature = "library")]
mod exports;
#[cfg(feature = "library")]
mod forms;
#[cfg(feature = "library")]
pub mod library;
#[cfg(feature = "library")]
pub mod prepared;

use std::io::{BufRead, BufReader, BufWriter, Write};
use std::process::{Child, ChildStdout, Command, Stdio};
use std::sync::mpsc::{Sender, channel};

use crate::protocol::Request;

/// Where ours said or left one thing and ours another: what it is, and both.
pub struct Unlike {
    pub what: &'static str,
    pub said: [(&'static str, String); 2],
}

pub trait Ours {
    /// Told of requests ahead of their answers, so that a program needn't be waited for line by line.
    fn ask(&mut self, line: &str);
    /// The answer to the oldest request that has none yet; nothing where this side has no such call.
    fn answer(&mut self, request: &Request) -> Option<String>;
    /// Where ours differed with ours in the last answer. A program shows one form alone.
    fn unlike(&mut self) -> Vec<Unlike> {
        vec![]
    }
    /// How much of ours was held against ours.
    fn held(&self) -> Option<String> {
        None
    }
}

pub struct Program {
    child: Child,
    lines: Sender<String>,
    answers: BufReader<ChildStdout>,
}

impl Program {
    pub fn start(command: &str) -> std::io::Result<Self> {
        let mut child = Command::new("sh").arg("-c").arg(command).stdin(Stdio::piped()).stdout(Stdio::piped()).spawn()?;
        let input = child.stdin.take().ok_or(std::io::ErrorKind::BrokenPipe)?;
        let output = child.stdout.take().ok_or(std::io::ErrorKind::BrokenPipe)?;
        let (lines, asked) = channel::<String>();
        std::thread::spawn(move || {
            let mut input = BufWriter::new(input);
            for batch in asked {
                if input.write_all(batch.as_bytes()).and_then(|()| input.flush()).is_err() {
                    return;
                }
            }
        });
        Ok(Self { child, lines, answers: BufReader::new(output) })
    }
}

impl Ours for Program {
    fn ask(&mut self, line: &str) {
        // A program that has ended is noticed when its answer is read.
        let _ = self.lines.send(format!("{line}\n"));
    }

    fn answer(&mut self, _: &Request) -> Option<String> {
        let mut line = String::new();
        Some(match self.answers.read_line(&mut line) {
            Ok(0) | Err(_) => "no answer".to_string(),
            Ok(_) => line.trim_end_matches('\n').to_string(),
        })
    }
}

impl Drop for Program {
    fn drop(&mut self) {
        let _ = self.child.kill();
        let _ = self.child.wait();
    }
}
