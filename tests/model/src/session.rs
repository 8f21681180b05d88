//! A script played on a module, with the rows of what was written.

use std::collections::BTreeMap;
use std::io::{self, Write};
use std::rc::Rc;

use crate::hex::Hex;
use crate::module::{self, Module};
use crate::pile::Pile;
use crate::reply::Reply;
use crate::script::{Call, Command};
use crate::store::{Content, BLOCK_BYTES};

const SHOWN_BYTES: usize = 16;

pub struct Session {
    module: Module,
    /// For each block that was written all its contents, from number 1.
    /// Number 0 is zeros, on both media.
    rows: BTreeMap<u32, Vec<Content>>,
}

impl Session {
    pub fn start(pile: &Pile) -> Self {
        Session {
            module: Module::make(pile.build()),
            rows: BTreeMap::new(),
        }
    }

    pub fn module(&self) -> &Module {
        &self.module
    }

    pub fn power(&self) -> bool {
        self.module.store().power()
    }

    pub fn stores_made(&self) -> u64 {
        self.module.store().stores_made()
    }

    pub fn play(&mut self, call: &Call) -> Reply {
        match call {
            Call::Reset => self.module.reset(),
            Call::Command(command) => self.command(command),
        }
    }

    fn command(&mut self, command: &Command) -> Reply {
        let power_before = self.power();
        let out = command.out.bytes();
        let reply = self
            .module
            .command(command.host, &command.cdb, &out, command.room);
        if reply.is_good() || (reply.number == 2 && power_before) {
            self.enter(&command.cdb, &out);
        }
        reply
    }

    /// Enters what a command that was not refused writes, if it is a WRITE.
    fn enter(&mut self, cdb: &[u8], out: &[u8]) {
        let Some(blocks) = module::written_blocks(cdb) else {
            return;
        };
        for (block, content) in blocks.zip(out.chunks_exact(BLOCK_BYTES)) {
            let content = content.try_into().expect("a chunk is a block");
            self.rows.entry(block).or_default().push(Rc::new(content));
        }
    }

    /// The blocks that were written, in rising order.
    pub fn written(&self) -> impl Iterator<Item = u32> + '_ {
        self.rows.keys().copied()
    }

    /// The newest number whose content is the one on the medium.
    pub fn number_found(&self, block: u32) -> usize {
        let found = self.module.store().on_medium(block);
        let row = self.rows.get(&block).map_or(&[][..], Vec::as_slice);
        match row.iter().rposition(|content| *content == found) {
            Some(index) => index + 1,
            None => {
                assert!(is_zeros(&found), "block {block} has what was never written");
                0
            }
        }
    }

    /// The lines after the replies.
    pub fn write_closing(&self, output: &mut impl Write) -> io::Result<()> {
        let store = self.module.store();
        let power = if store.power() { "on" } else { "off" };
        let (stores, held) = (store.stores_made(), store.held());
        writeln!(output, "stores {stores} held {held} power {power}")?;
        for (&block, row) in &self.rows {
            let content = store.on_medium(block);
            if !is_zeros(&content) {
                let shown = Hex(&content[..SHOWN_BYTES]);
                let (number, last) = (self.number_found(block), row.len());
                writeln!(output, "block {block} {shown} number {number} of {last}")?;
            }
        }
        Ok(())
    }
}

fn is_zeros(content: &Content) -> bool {
    content.iter().all(|&byte| byte == 0)
}

/// Plays a whole script: the replies, and then the closing lines.
pub fn play(pile: &Pile, calls: &[Call], output: &mut impl Write) -> io::Result<Session> {
    let mut session = Session::start(pile);
    for call in calls {
        writeln!(output, "{}", session.play(call))?;
    }
    session.write_closing(output)?;
    Ok(session)
}

/// The map: for every grant up to the stores of the whole run, the numbers found.
pub fn write_map(
    pile: &Pile,
    calls: &[Call],
    whole: &Session,
    output: &mut impl Write,
) -> io::Result<()> {
    let mut rows: BTreeMap<u32, Vec<usize>> =
        whole.written().map(|block| (block, Vec::new())).collect();
    let most = u32::try_from(whole.stores_made()).expect("no more stores than the grant");
    for grant in 1..=most {
        let mut session = Session::start(&pile.clone().with_grant(grant));
        for call in calls {
            session.play(call);
        }
        for (&block, row) in &mut rows {
            row.push(session.number_found(block));
        }
    }
    writeln!(output)?;
    write_row(output, "grant", 1..=most)?;
    for (block, row) in rows {
        write_row(output, &format!("block {block}"), row)?;
    }
    Ok(())
}

fn write_row<T: ToString>(
    output: &mut impl Write,
    name: &str,
    cells: impl IntoIterator<Item = T>,
) -> io::Result<()> {
    let cells: Vec<String> = cells.into_iter().map(|cell| cell.to_string()).collect();
    writeln!(output, "{name} {}", cells.join(" "))
}

#[cfg(test)]
mod tests {
    use super::*;
    use crate::options;
    use crate::script;

    fn printed(words: &str, text: &str) -> String {
        let (pile, _) = options::parse(script::words(words)).unwrap();
        let calls = script::parse(script::numbered(text)).unwrap();
        let mut output = Vec::new();
        play(&pile, &calls, &mut output).unwrap();
        String::from_utf8(output).unwrap()
    }

    const FORCED: &str = "\
command 0 000000000000
command 0 2a080000000300000200 out 01x512+02x512
command 0 2a080000000300000200 out 03x512+01x512
";

    #[test]
    fn the_newest_equal_content_is_told() {
        let text = "command 0 000000000000\n# twice the same\n\
                    command 0 2a080000000300000100 out 01x512\n\
                    command 0 2a080000000300000100 out 01x512\n";
        assert_eq!(
            printed("flat", text),
            "6 02 06 29 00 0\n0 00 00 00 00 0\n0 00 00 00 00 0\n\
             stores 2 held 0 power on\n\
             block 3 01010101010101010101010101010101 number 2 of 2\n"
        );
    }

    #[test]
    fn a_lost_write_counts_for_all_its_blocks() {
        assert_eq!(
            printed("card+table --grant 3", FORCED),
            "6 02 06 29 00 0\n0 00 00 00 00 0\n2 ff 00 00 00 0\n\
             stores 3 held 0 power off\n\
             block 3 03030303030303030303030303030303 number 2 of 2\n\
             block 4 02020202020202020202020202020202 number 1 of 2\n"
        );
    }

    #[test]
    fn without_a_grant_nothing_is_done() {
        assert_eq!(
            printed(
                "flat+queue --grant 0",
                "command 0 120000002400\nreset\ncommand 4 -\n"
            ),
            "2 ff 00 00 00 0\n2 ff 00 00 00 0\n1 ff 00 00 00 0\nstores 0 held 0 power off\n"
        );
    }
}
