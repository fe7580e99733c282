//! What runs calls: the program `replay`, or anything else that answers a call by a line.

use crate::block::written;
use crate::expected::line;
use crate::lines::LABEL;
use independent::{Call, Said};
use std::io::{BufRead, BufReader, Read, Write};
use std::process::{Child, ChildStdin, ChildStdout, Command, Stdio};
use std::sync::Mutex;

/// What stands in the place of a line that was not given.
pub const NO_LINE: &str = "(no line)";

/// Something that runs calls in the order given, and answers each by a line.
pub trait Executor: Sync {
    fn run(&self, calls: &[&Call]) -> Result<Vec<String>, String>;

    /// What the call answers, and its line: in `replay`'s words, where the executor has none of its own.
    fn expected(&self, call: &Call) -> (Said, String) {
        line(call)
    }

    /// How many calls are made, and go through, before the next ones.
    fn batch(&self) -> usize {
        100
    }

    /// No more calls come: whether what ran them ends as it should.
    fn end(&self) -> Result<(), String> {
        Ok(())
    }
}

/// The answer to expect of one call, and both lines where the executor gives another.
pub fn compared(call: &Call, executor: &dyn Executor) -> Result<(String, Option<String>), String> {
    let expected = executor.expected(call).1;
    let given = executor.run(&[call])?.join("\n");
    let answer = expected.split(" | ").next().unwrap_or_default().to_string();
    let differ = (given != expected).then(|| format!("    expected {expected}\n    given    {given}"));
    Ok((answer, differ))
}

/// The program `replay`, by the words of its command. One process answers all calls; only where it ends too soon is another started.
pub struct Replay {
    words: Vec<String>,
    running: Mutex<Option<Running>>,
}

impl Replay {
    pub fn new(words: Vec<String>) -> Replay {
        Replay { words, running: Mutex::new(None) }
    }

    fn started(&self) -> Result<Child, String> {
        let (program, words) = self.words.split_first().ok_or("no program to run")?;
        let started = Command::new(program).args(words).stdin(Stdio::piped()).stdout(Stdio::piped()).spawn();
        started.map_err(|e| format!("{program}: {e}"))
    }

    /// What a process of its own writes for this standard input, whatever its exit status.
    pub fn written(&self, input: Vec<u8>) -> Result<String, String> {
        let mut child = self.started()?;
        let mut stdin = child.stdin.take().ok_or("no standard input")?;
        // A program that ends early leaves part of its input; its output tells that.
        let writing = std::thread::spawn(move || stdin.write_all(&input).is_ok());
        let output = child.wait_with_output().map_err(|e| e.to_string())?;
        let _ = writing.join();
        String::from_utf8(output.stdout).map_err(|e| e.to_string())
    }

    /// The line that answers a call, given as its bytes.
    pub fn asked(&self, call: &[u8]) -> Result<String, String> {
        let mut running = self.running.lock().expect("no caller panics");
        if running.is_none() {
            *running = Some(Running::of(self.started()?)?);
        }
        let line = running.as_mut().map_or(Ok(None), |running| running.asked(call))?;
        if line.is_none() {
            *running = None;
        }
        Ok(line.unwrap_or_else(|| String::from(NO_LINE)))
    }
}

impl Executor for Replay {
    fn run(&self, calls: &[&Call]) -> Result<Vec<String>, String> {
        calls.iter().map(|call| self.asked(&written(call))).collect()
    }

    fn end(&self) -> Result<(), String> {
        self.running.lock().expect("no caller panics").take().map_or(Ok(()), Running::end)
    }
}

/// A process that is asked: a call goes in, then its line comes out.
struct Running {
    child: Child,
    input: ChildStdin,
    output: BufReader<ChildStdout>,
    /// Whether the label, which is the first line, has been read.
    is_labelled: bool,
}

impl Running {
    fn of(mut child: Child) -> Result<Running, String> {
        let input = child.stdin.take().ok_or("no standard input")?;
        let output = BufReader::new(child.stdout.take().ok_or("no standard output")?);
        Ok(Running { child, input, output, is_labelled: false })
    }

    /// None where the process has ended.
    fn asked(&mut self, call: &[u8]) -> Result<Option<String>, String> {
        // A program that ends early leaves part of the call; its output tells that.
        let _ = self.input.write_all(call).and_then(|()| self.input.flush());
        if !self.is_labelled {
            let first = self.line()?.unwrap_or_default();
            if first != LABEL {
                return Err(format!("the first line is no label: {first}"));
            }
            self.is_labelled = true;
        }
        self.line()
    }

    fn line(&mut self) -> Result<Option<String>, String> {
        let mut line = String::new();
        let length = self.output.read_line(&mut line).map_err(|e| e.to_string())?;
        Ok((length > 0).then(|| line.trim_end_matches('\n').to_string()))
    }

    /// The end of the input ends the process, which says nothing more.
    fn end(mut self) -> Result<(), String> {
        drop(self.input);
        let mut rest = String::new();
        self.output.read_to_string(&mut rest).map_err(|e| e.to_string())?;
        let status = self.child.wait().map_err(|e| e.to_string())?;
        if !rest.is_empty() || !status.success() {
            return Err(format!("at the end of the calls: {status}: {rest}"));
        }
        Ok(())
    }
}

/// No program: the expected lines themselves. With it the calls and their coverage are tried alone.
pub struct Nobody;

impl Executor for Nobody {
    fn run(&self, calls: &[&Call]) -> Result<Vec<String>, String> {
        Ok(calls.iter().map(|call| line(call).1).collect())
    }
}
