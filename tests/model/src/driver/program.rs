//! The program to compare with.

use std::io::{self, Read, Write};
use std::path::PathBuf;
use std::process::{Child, Command, Stdio};
use std::thread;

use crate::case::Case;

pub enum Program {
    /// Takes the command line of `recorder`: a process for each case. Some are
    /// asked with `--serve`, whose output is the same.
    Recorder { path: PathBuf, serve: bool },
    /// Reads many cases from standard input: a process for each batch.
    Cases { path: PathBuf },
}

impl Program {
    /// How many cases are asked at once.
    pub fn batch(&self) -> usize {
        match self {
            Program::Recorder { .. } => 1,
            Program::Cases { .. } => 200,
        }
    }

    /// What the program prints for each case. How it ended is added to the last
    /// one, unless it ended well; what is missing is empty.
    pub fn played(&self, cases: &[Case]) -> io::Result<Vec<String>> {
        match self {
            Program::Recorder { path, serve } => cases
                .iter()
                .map(|case| {
                    let words = case.pile.to_string();
                    let mut command = Command::new(path);
                    command.args(words.split(' '));
                    if *serve {
                        command.arg("--serve");
                    }
                    answered(&mut command, &case.script())
                })
                .collect(),
            Program::Cases { path } => {
                let text: String = cases.iter().map(Case::to_string).collect();
                let mut output = split_cases(&answered(&mut Command::new(path), &text)?);
                output.resize(cases.len().max(output.len()), String::new());
                Ok(output)
            }
        }
    }

    /// The line that shows which case an output is for, where there is one.
    pub fn heading(&self, case: &Case) -> String {
        match self {
            Program::Recorder { .. } => String::new(),
            Program::Cases { .. } => format!("case {}\n", case.pile),
        }
    }
}

/// Everything that a command prints for an input.
fn answered(command: &mut Command, input: &str) -> io::Result<String> {
    let mut child = command
        .stdin(Stdio::piped())
        .stdout(Stdio::piped())
        .spawn()
        .map_err(|error| {
            let program = command.get_program().to_string_lossy();
            io::Error::new(error.kind(), format!("`{program}`: {error}"))
        })?;
    let output = exchange(&mut child, input)?;
    let mut text = String::from_utf8_lossy(&output).into_owned();
    let status = child.wait()?;
    if !status.success() {
        text.push_str(&format!("({status})\n"));
    }
    Ok(text)
}

/// Writes the input while the output is read, so that neither waits for the other.
fn exchange(child: &mut Child, input: &str) -> io::Result<Vec<u8>> {
    let mut stdin = child.stdin.take().expect("standard input is a pipe");
    let mut stdout = child.stdout.take().expect("standard output is a pipe");
    thread::scope(|scope| {
        // A program that ends early leaves input unread; its output tells.
        scope.spawn(move || stdin.write_all(input.as_bytes()).ok());
        let mut output = Vec::new();
        stdout.read_to_end(&mut output)?;
        Ok(output)
    })
}

/// Each case's part of an output, its `case` line first.
fn split_cases(output: &str) -> Vec<String> {
    let mut parts: Vec<String> = Vec::new();
    for line in output.split_inclusive('\n') {
        match parts.last_mut() {
            Some(part) if !line.starts_with("case ") => part.push_str(line),
            _ => parts.push(line.to_string()),
        }
    }
    parts
}
