//! Many scripts in one text: each begins with a line `case ORDER [options]`.

use std::io::{self, Write};

use crate::options::{self, Mode};
use crate::pile::Pile;
use crate::script::{self, Call};
use crate::session;

/// Plays every case of a text. One that cannot be played is answered by its error.
pub fn play_all(text: &str, output: &mut impl Write) -> io::Result<()> {
    let mut lines = script::numbered(text).peekable();
    while let Some((number, line)) = lines.next() {
        if script::is_skipped(line) {
            continue;
        }
        let mut script = Vec::new();
        while let Some(of_script) = lines.next_if(|(_, line)| !is_case(line)) {
            script.push(of_script);
        }
        if is_case(line) {
            writeln!(output, "{line}")?;
            play_case(line, script, output)?;
        } else {
            writeln!(
                output,
                "error line {number}: expected `case ORDER [options]`"
            )?;
        }
    }
    Ok(())
}

fn play_case(line: &str, script: Vec<(usize, &str)>, output: &mut impl Write) -> io::Result<()> {
    match parse_case(line, script) {
        Ok((pile, calls)) => session::play(&pile, &calls, output).map(|_| ()),
        Err(error) => writeln!(output, "error {error}"),
    }
}

fn parse_case(line: &str, script: Vec<(usize, &str)>) -> Result<(Pile, Vec<Call>), String> {
    match options::parse(script::words(line).skip(1))? {
        (pile, Mode::Plain) => Ok((pile, script::parse(script)?)),
        _ => Err("expected a case without --map and --serve".to_string()),
    }
}

fn is_case(line: &str) -> bool {
    script::words(line).next() == Some("case")
}

#[cfg(test)]
mod tests {
    use super::*;

    #[test]
    fn an_unplayable_case_does_not_stop_the_others() {
        let text = "# two cases\n\ncase disk\nreset\n\ncase flat  --grant 1\n# here\nreset\n";
        let mut output = Vec::new();
        play_all(text, &mut output).unwrap();
        let output = String::from_utf8(output).unwrap();
        let lines: Vec<&str> = output.lines().collect();
        assert_eq!(lines.len(), 5);
        assert_eq!(lines[0], "case disk");
        assert!(lines[1].starts_with("error "));
        assert_eq!(
            lines[2..],
            [
                "case flat  --grant 1",
                "0 00 00 00 00 0",
                "stores 0 held 0 power on"
            ]
        );
    }
}
