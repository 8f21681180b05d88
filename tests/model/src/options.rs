//! The words of the command line, and of a `case` line.

use crate::pile::{MediumKind, Order, Pile, MOST_BLOCKS};

#[derive(Debug, Clone, Copy, PartialEq, Eq)]
pub enum Mode {
    Plain,
    Map,
    Serve,
}

/// Parses `ORDER [--blocks N] [--pages N] [--grant N] [--map | --serve]`.
pub fn parse<'a>(words: impl IntoIterator<Item = &'a str>) -> Result<(Pile, Mode), String> {
    let mut words = words.into_iter();
    let order: Order = words
        .next()
        .ok_or("expected an ORDER, as `card+queue+table`")?
        .parse()?;
    let mut given = Given::default();
    while let Some(word) = words.next() {
        match word {
            "--blocks" => {
                let blocks = number(word, words.next(), 1, MOST_BLOCKS)?;
                once(word, &mut given.blocks, blocks)?;
            }
            "--pages" => {
                let pages = number(word, words.next(), 0, u32::MAX)?;
                once(word, &mut given.pages, pages)?;
            }
            "--grant" => {
                let grant = number(word, words.next(), 0, u32::MAX)?;
                once(word, &mut given.grant, grant)?;
            }
            "--map" => once(word, &mut given.mode, Mode::Map)?,
            "--serve" => once(word, &mut given.mode, Mode::Serve)?,
            _ => {
                return Err(format!(
                    "`{word}`: expected --blocks, --pages, --grant, --map or --serve"
                ))
            }
        }
    }
    Ok((given.pile(order)?, given.mode.unwrap_or(Mode::Plain)))
}

#[derive(Default)]
struct Given {
    blocks: Option<u32>,
    pages: Option<u32>,
    grant: Option<u32>,
    mode: Option<Mode>,
}

impl Given {
    fn pile(&self, order: Order) -> Result<Pile, String> {
        let mut pile = Pile::new(order);
        if let Some(blocks) = self.blocks {
            pile = pile.with_blocks(blocks);
        }
        if let Some(pages) = self.pages {
            if pile.order.medium != MediumKind::Card {
                return Err("`--pages`: expected with `card` alone".to_string());
            }
            if pages <= pile.blocks {
                let least = pile.blocks + 1;
                return Err(format!("`--pages {pages}`: expected at least {least}"));
            }
            pile.pages = pages;
        }
        if let Some(grant) = self.grant {
            pile.grant = grant;
        }
        Ok(pile)
    }
}

fn once<T>(word: &str, place: &mut Option<T>, value: T) -> Result<(), String> {
    match place.replace(value) {
        None => Ok(()),
        Some(_) => Err(format!(
            "`{word}`: expected each option once, and --map or --serve"
        )),
    }
}

/// A number after an option, of decimal digits alone.
fn number(option: &str, word: Option<&str>, least: u32, most: u32) -> Result<u32, String> {
    let word = word.unwrap_or_default();
    decimal(word)
        .and_then(|value| u32::try_from(value).ok())
        .filter(|value| (least..=most).contains(value))
        .ok_or_else(|| format!("`{option} {word}`: expected a number from {least} to {most}"))
}

/// The value of decimal digits, and nothing else.
pub fn decimal(word: &str) -> Option<u64> {
    let digits = !word.is_empty() && word.bytes().all(|byte| byte.is_ascii_digit());
    digits.then(|| word.parse().ok()).flatten()
}

#[cfg(test)]
mod tests {
    use super::*;

    fn words(line: &str) -> Result<(Pile, Mode), String> {
        parse(line.split(' '))
    }

    #[test]
    fn a_pile_reads_as_it_is_written() {
        for line in [
            "flat",
            "card+queue+table --blocks 3 --pages 4 --grant 0",
            "card --pages 11",
            "flat+table+table+queue --grant 4294967295",
        ] {
            let (pile, mode) = words(line).unwrap();
            assert_eq!((pile.to_string().as_str(), mode), (line, Mode::Plain));
        }
    }

    #[test]
    fn malformed_words_are_refused() {
        for line in [
            "",
            "table",
            "flat+table+table+queue+queue",
            "flat --pages 12",
            "card --pages 10",
            "card --blocks 16777217",
            "card --blocks 0",
            "card --grant +1",
            "card --grant 4294967296",
            "card --grant",
            "card --grant 1 --grant 1",
            "card --map --serve",
            "card --mop",
        ] {
            assert!(words(line).is_err(), "{line}");
        }
    }
}
