//! The model as a program: `recorder`'s command line, and a file of many cases.

use std::error::Error;
use std::io::{self, BufRead, BufWriter, Read, Write};
use std::process::ExitCode;
use std::{env, fs};

use recorder_model::options::{self, Mode};
use recorder_model::pile::Pile;
use recorder_model::session::{self, Session};
use recorder_model::{cases, script};

const HELP: &str = "\
model ORDER [--blocks N] [--pages N] [--grant N] [--map | --serve]
    plays the script on standard input, as the program recorder does
model cases [FILE]
    plays every case of a file, or of standard input
model --help
";

fn main() -> ExitCode {
    match run() {
        Ok(()) => ExitCode::SUCCESS,
        Err(error) => {
            eprintln!("error {error}");
            ExitCode::FAILURE
        }
    }
}

fn run() -> Result<(), Box<dyn Error>> {
    let words: Vec<String> = env::args().skip(1).collect();
    let words: Vec<&str> = words.iter().map(String::as_str).collect();
    let mut output = BufWriter::new(io::stdout().lock());
    match words[..] {
        ["--help"] => output.write_all(HELP.as_bytes())?,
        ["cases"] => cases::play_all(&standard_input()?, &mut output)?,
        ["cases", file] => {
            let text = fs::read(file).map_err(|error| format!("`{file}`: {error}"))?;
            cases::play_all(&String::from_utf8_lossy(&text), &mut output)?;
        }
        _ => match options::parse(words)? {
            (pile, Mode::Serve) => serve(&pile, &mut output)?,
            (pile, mode) => play(&pile, mode, &mut output)?,
        },
    }
    output.flush()?;
    Ok(())
}

fn play(pile: &Pile, mode: Mode, output: &mut impl Write) -> Result<(), Box<dyn Error>> {
    let text = standard_input()?;
    let calls = script::parse(script::numbered(&text))?;
    let session = session::play(pile, &calls, output)?;
    if mode == Mode::Map {
        session::write_map(pile, &calls, &session, output)?;
    }
    Ok(())
}

/// Answers each line before the next is read.
fn serve(pile: &Pile, output: &mut impl Write) -> io::Result<()> {
    let mut session = Session::start(pile);
    for (number, line) in (1..).zip(io::stdin().lock().split(b'\n')) {
        let line = line?;
        let line = String::from_utf8_lossy(&line);
        let line = line.strip_suffix('\r').unwrap_or(&line);
        if script::is_skipped(line) {
            continue;
        }
        match script::parse_line(line) {
            Ok(call) => writeln!(output, "{}", session.play(&call))?,
            Err(error) => writeln!(output, "error line {number}: {error}")?,
        }
        output.flush()?;
    }
    session.write_closing(output)
}

fn standard_input() -> io::Result<String> {
    let mut text = Vec::new();
    io::stdin().lock().read_to_end(&mut text)?;
    Ok(String::from_utf8_lossy(&text).into_owned())
}
