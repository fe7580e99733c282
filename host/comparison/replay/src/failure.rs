//! Why a run ends before its input does. The program says it on the error stream.

use std::collections::TryReserveError;
use std::{fmt, io};

#[derive(Debug)]
pub enum Failure {
    /// A text or a room, by its name, that the machine has no memory for.
    NoMemory(&'static str),
    Input(io::Error),
    Output(io::Error),
}

impl Failure {
    /// For a reservation of memory that may fail.
    pub fn no_memory(name: &'static str) -> impl FnOnce(TryReserveError) -> Failure {
        move |_| Failure::NoMemory(name)
    }
}

impl fmt::Display for Failure {
    fn fmt(&self, f: &mut fmt::Formatter) -> fmt::Result {
        match self {
            Failure::NoMemory(name) => write!(f, "no memory for {name}"),
            Failure::Input(error) => write!(f, "standard input: {error}"),
            Failure::Output(error) => write!(f, "standard output: {error}"),
        }
    }
}

impl std::error::Error for Failure {}
