//! What the runs were like.

use std::collections::BTreeMap;
use std::fmt;

use recorder_model::module::Code;
use recorder_model::pile::Order;
use recorder_model::script::Call;
use recorder_model::session::Session;

use crate::case::Case;

#[derive(Default)]
pub struct Tally {
    pub runs: u64,
    calls: u64,
    lost_power: u64,
    without_power: u64,
    replies: BTreeMap<u8, u64>,
    good: BTreeMap<u8, u64>,
    piles: BTreeMap<Order, u64>,
}

impl Tally {
    /// Plays a case and counts its replies.
    pub fn count(&mut self, case: &Case) {
        let mut session = Session::start(&case.pile);
        let power_at_start = session.power();
        for call in &case.calls {
            let reply = session.play(call);
            *self.replies.entry(reply.number).or_default() += 1;
            match call {
                Call::Command(command) if reply.is_good() => {
                    *self.good.entry(command.cdb[0]).or_default() += 1;
                }
                _ => {}
            }
        }
        self.runs += 1;
        self.calls += case.calls.len() as u64;
        self.without_power += u64::from(!power_at_start);
        self.lost_power += u64::from(power_at_start && !session.power());
        *self.piles.entry(case.pile.order.clone()).or_default() += 1;
    }
}

impl fmt::Display for Tally {
    fn fmt(&self, f: &mut fmt::Formatter<'_>) -> fmt::Result {
        writeln!(f, "runs {}, calls {}", self.runs, self.calls)?;
        writeln!(
            f,
            "runs that lost power {}, runs without power from the start {}",
            self.lost_power, self.without_power
        )?;
        write_counts(f, "replies of each number", &self.replies)?;
        let good = self.good.iter().filter_map(|(&byte, count)| {
            let code = Code::from_byte(byte)?;
            Some((format!("{code:?}"), count))
        });
        write_counts(f, "good commands", good)?;
        write_counts(f, "runs of each pile", &self.piles)
    }
}

fn write_counts<'a, K: fmt::Display>(
    f: &mut fmt::Formatter<'_>,
    name: &str,
    counts: impl IntoIterator<Item = (K, &'a u64)>,
) -> fmt::Result {
    let counts: Vec<String> = counts
        .into_iter()
        .map(|(key, count)| format!("  {key} {count}\n"))
        .collect();
    write!(f, "{name}:\n{}", counts.concat())
}
