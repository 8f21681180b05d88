//! Plays random runs on a program and on the model, and compares what they print.

mod case;
mod generate;
mod program;
mod rng;
mod shrink;
mod tally;

use std::io;
use std::path::PathBuf;
use std::process::ExitCode;
use std::{env, iter};

use case::Case;
use program::Program;
use recorder_model::options::decimal;
use tally::Tally;

const HELP: &str = "\
driver (--recorder PATH | --cases PATH) [--seed N] [--runs N] [--first N]
    --recorder PATH  a program with recorder's command line, a process for each run
    --cases PATH     a program that reads cases from standard input, one for many runs
    --seed N         the seed of the runs (1)
    --runs N         how many runs (15000 with --recorder, 200000 with --cases)
    --first N        the number of the first run (0)
The exit status is 1 if a run differs, and 2 if the runs cannot be made.
";

const EXIT_TROUBLE: u8 = 2;
const SHOWN_COLUMNS: usize = 120;

fn main() -> ExitCode {
    let words: Vec<String> = env::args().skip(1).collect();
    if words == ["--help"] {
        print!("{HELP}");
        return ExitCode::SUCCESS;
    }
    let compared = Options::parse(words)
        .and_then(|options| compare(&options).map_err(|error| error.to_string()));
    match compared {
        Ok(true) => ExitCode::SUCCESS,
        Ok(false) => ExitCode::FAILURE,
        Err(error) => {
            eprintln!("error {error}");
            ExitCode::from(EXIT_TROUBLE)
        }
    }
}

struct Options {
    /// The programs, asked in turn.
    programs: Vec<Program>,
    seed: u64,
    runs: u64,
    first: u64,
}

impl Options {
    fn parse(words: Vec<String>) -> Result<Options, String> {
        let (mut recorder, mut cases) = (None, None);
        let (mut seed, mut runs, mut first) = (1, None, 0);
        let mut words = words.into_iter();
        while let Some(word) = words.next() {
            let value = words
                .next()
                .ok_or_else(|| format!("`{word}`: expected an option with a value"))?;
            let number = || decimal(&value).ok_or_else(|| format!("`{value}`: expected a number"));
            match word.as_str() {
                "--recorder" => recorder = Some(PathBuf::from(value)),
                "--cases" => cases = Some(PathBuf::from(value)),
                "--seed" => seed = number()?,
                "--runs" => runs = Some(number()?),
                "--first" => first = number()?,
                _ => return Err(format!("`{word}`: expected an option of\n{HELP}")),
            }
        }
        let (programs, usual_runs) = match (recorder, cases) {
            (Some(path), None) => {
                let serve = |serve| Program::Recorder {
                    path: path.clone(),
                    serve,
                };
                (vec![serve(false), serve(true)], 15_000)
            }
            (None, Some(path)) => (vec![Program::Cases { path }], 200_000),
            _ => return Err("expected --recorder or --cases".to_string()),
        };
        Ok(Options {
            programs,
            seed,
            runs: runs.unwrap_or(usual_runs),
            first,
        })
    }
}

/// Makes the runs, up to the first that differs. Tells whether all were the same.
fn compare(options: &Options) -> io::Result<bool> {
    let mut tally = Tally::default();
    let mut turn = options.programs.iter().cycle();
    let end = options.first + options.runs;
    let mut next = options.first;
    let mut same = true;
    while same && next < end {
        let program = turn.next().expect("there is a program");
        let batch_end = end.min(next + program.batch() as u64);
        let cases: Vec<Case> = (next..batch_end)
            .map(|run| generate::case(options.seed, run))
            .collect();
        if let Some(index) = first_difference(program, &cases)? {
            println!(
                "run {} of seed {} differs",
                next + index as u64,
                options.seed
            );
            show_difference(program, cases[index].clone())?;
            same = false;
        }
        cases.iter().for_each(|case| tally.count(case));
        next = batch_end;
    }
    println!("seed {}, first run {}", options.seed, options.first);
    print!("{tally}");
    println!(
        "{}",
        if same {
            "no difference"
        } else {
            "a difference"
        }
    );
    Ok(same)
}

/// The first case for which the program prints something else than the model.
fn first_difference(program: &Program, cases: &[Case]) -> io::Result<Option<usize>> {
    let outputs = program.played(cases)?;
    let expected = cases
        .iter()
        .map(|case| program.heading(case) + &case.played());
    let first = iter::zip(&outputs, expected).position(|(output, expected)| *output != expected);
    // Whatever is printed past the last case belongs to it.
    let surplus = outputs.len() > cases.len();
    Ok(first.or(surplus.then(|| cases.len() - 1)))
}

fn show_difference(program: &Program, case: Case) -> io::Result<()> {
    let shrunk = shrink::shrink(case.clone(), |case| {
        matches!(
            first_difference(program, std::slice::from_ref(case)),
            Ok(Some(_))
        )
    });
    if first_difference(program, std::slice::from_ref(&shrunk))?.is_none() {
        println!("alone it does not; the case as it was asked among others:");
        print!("{case}");
        return Ok(());
    }
    let output = program.played(std::slice::from_ref(&shrunk))?.concat();
    let expected = program.heading(&shrunk) + &shrunk.played();
    println!("shortest script that does:\n{shrunk}");
    show_output("the program prints:", &output, &expected);
    show_output("the model prints:", &expected, &output);
    Ok(())
}

/// Shows an output, with `>` at the first line that the other one does not have.
fn show_output(title: &str, output: &str, other: &str) {
    let same = iter::zip(output.lines(), other.lines())
        .take_while(|(line, other)| line == other)
        .count();
    println!("{title}");
    for (index, line) in output.lines().enumerate() {
        let mark = if index == same { '>' } else { ' ' };
        println!("{mark} {}", shortened(line));
    }
    println!();
}

/// A line without its middle, if it is long.
fn shortened(line: &str) -> String {
    if line.chars().count() <= SHOWN_COLUMNS {
        return line.to_string();
    }
    let start: String = line.chars().take(SHOWN_COLUMNS / 2).collect();
    let mut end: Vec<char> = line.chars().rev().take(SHOWN_COLUMNS / 2).collect();
    end.reverse();
    let end: String = end.into_iter().collect();
    format!("{start} ... {end}")
}
