//! A side as it is asked: a process, and the best time of each job.

use crate::jobs::{jobs, Job};
use crate::Ms;
use std::io::{BufRead, BufReader, Write};
use std::process::{Child, ChildStdin, ChildStdout, Command, Stdio};

pub struct Side {
    child: Child,
    input: ChildStdin,
    output: BufReader<ChildStdout>,
    best: Vec<Ms>,
}

impl Side {
    /// WAGONTULIP_RUNNER runs a program of another machine.
    pub fn start(program: &str) -> Result<Side, String> {
        let runner = std::env::var("WAGONTULIP_RUNNER").unwrap_or_default();
        let mut words = runner.split_whitespace().chain([program]);
        let first = words.next().unwrap_or(program);
        let started = Command::new(first).args(words).stdin(Stdio::piped()).stdout(Stdio::piped()).spawn();
        let mut child = started.map_err(|error| format!("{program}: {error}"))?;
        let (input, output) = (child.stdin.take().ok_or("no standard input")?, child.stdout.take().ok_or("no standard output")?);
        Ok(Side { child, input, output: BufReader::new(output), best: vec![f64::INFINITY; jobs().len()] })
    }

    /// Has it do a job once more.
    pub fn ask(&mut self, number: usize) -> Result<(), String> {
        let mut line = String::new();
        writeln!(self.input, "{number}").and_then(|()| self.output.read_line(&mut line)).map_err(|error| error.to_string())?;
        let took: f64 = line.trim_end().parse().map_err(|_| format!("job {number} has no time"))?;
        self.best[number] = self.best[number].min(took / 1e6);
        Ok(())
    }

    pub fn best(&self, job: Job) -> Ms {
        jobs().iter().position(|other| *other == job).map_or(f64::INFINITY, |number| self.best[number])
    }
}

impl Drop for Side {
    fn drop(&mut self) {
        let _ = self.child.kill();
        let _ = self.child.wait();
    }
}
