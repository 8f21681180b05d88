//! Finds a short case that still shows a difference.

use recorder_model::pile::{MediumKind, Pile};
use recorder_model::script::{Call, Command, Data};

use crate::case::Case;

/// Drops calls and then shortens the rest, as long as the difference remains.
pub fn shrink(case: Case, mut differs: impl FnMut(&Case) -> bool) -> Case {
    let mut case = case;
    loop {
        let before = case.clone();
        drop_calls(&mut case, &mut differs);
        simplify_calls(&mut case, &mut differs);
        simplify_pile(&mut case, &mut differs);
        if case == before {
            return case;
        }
    }
}

/// Drops stretches of calls, from long ones to single ones.
fn drop_calls(case: &mut Case, differs: &mut impl FnMut(&Case) -> bool) {
    let mut stretch = case.calls.len();
    while stretch > 0 {
        let mut start = 0;
        while start < case.calls.len() {
            let end = case.calls.len().min(start + stretch);
            let mut shorter = case.clone();
            shorter.calls.drain(start..end);
            if !take(case, shorter, differs) {
                start += stretch;
            }
        }
        stretch /= 2;
    }
}

fn simplify_calls(case: &mut Case, differs: &mut impl FnMut(&Case) -> bool) {
    for index in 0..case.calls.len() {
        let mut attempt = 0;
        while let Some(simpler) = simpler_calls(&case.calls[index]).get(attempt) {
            let mut changed = case.clone();
            changed.calls[index] = simpler.clone();
            attempt = match take(case, changed, differs) {
                true => 0,
                false => attempt + 1,
            };
        }
    }
}

/// Calls that are simpler than this one, the simplest first.
fn simpler_calls(call: &Call) -> Vec<Call> {
    let Call::Command(command) = call else {
        return Vec::new();
    };
    let mut simpler = Vec::new();
    let plain = Command::new(command.host, command.cdb.clone());
    if *command != plain {
        simpler.push(plain.clone());
        simpler.push(plain.with_out(command.out.clone()));
    }
    if let Some(shorter) = command.out.len().checked_sub(1) {
        let len = command.out.len();
        simpler.extend(
            [
                Data::repeated(1, len),
                Data::repeated(2, len),
                command.out.cut(len / 2),
                command.out.cut(shorter),
            ]
            .into_iter()
            .filter(|data| is_simpler(data, &command.out))
            .map(|data| command.clone().with_out(data)),
        );
    }
    if command.host != 0 {
        simpler.push(Command {
            host: 0,
            ..command.clone()
        });
    }
    for len in [6, 10].into_iter().filter(|&len| len < command.cdb.len()) {
        let mut shorter = command.clone();
        shorter.cdb.truncate(len);
        simpler.push(shorter);
    }
    for index in 1..command.cdb.len() {
        let value = command.cdb[index];
        let mut lower: Vec<u8> = [0, 1, value / 2, value.saturating_sub(1)]
            .into_iter()
            .filter(|&byte| byte < value)
            .collect();
        lower.dedup();
        for byte in lower {
            let mut changed = command.clone();
            changed.cdb[index] = byte;
            simpler.push(changed);
        }
    }
    simpler
        .into_iter()
        .map(Call::Command)
        .filter(|simpler| simpler != call)
        .collect()
}

/// Whether data is written shorter, or as long with lower digits. So one change
/// of data never undoes another.
fn is_simpler(data: &Data, than: &Data) -> bool {
    let measure = |data: &Data| {
        let text = data.to_string();
        (text.len(), text)
    };
    measure(data) < measure(than)
}

fn simplify_pile(case: &mut Case, differs: &mut impl FnMut(&Case) -> bool) {
    let mut attempt = 0;
    while let Some(pile) = simpler_piles(&case.pile).get(attempt) {
        let changed = Case {
            pile: pile.clone(),
            calls: case.calls.clone(),
        };
        attempt = match take(case, changed, differs) {
            true => 0,
            false => attempt + 1,
        };
    }
}

/// Piles that are simpler than this one: fewer caches, a flat medium, options
/// that need not be told.
fn simpler_piles(pile: &Pile) -> Vec<Pile> {
    let plain = Pile::new(pile.order.clone());
    let mut simpler = Vec::new();
    for index in 0..pile.order.caches.len() {
        let mut fewer = pile.clone();
        fewer.order.caches.remove(index);
        simpler.push(fewer);
    }
    if pile.order.medium == MediumKind::Card {
        let mut flat = pile.clone();
        flat.order.medium = MediumKind::Flat;
        simpler.push(flat.with_blocks(pile.blocks));
    }
    simpler.push(plain.clone().with_grant(pile.grant));
    simpler.push(pile.clone().with_blocks(pile.blocks));
    simpler.push(pile.clone().with_grant(plain.grant));
    if pile.grant != plain.grant {
        for grant in [pile.grant / 2, pile.grant.saturating_sub(1)] {
            if grant < pile.grant {
                simpler.push(pile.clone().with_grant(grant));
            }
        }
    }
    simpler.retain(|simpler| simpler != pile);
    simpler
}

/// Takes the changed case in place of the old one, if it still differs.
fn take(case: &mut Case, changed: Case, differs: &mut impl FnMut(&Case) -> bool) -> bool {
    let taken = differs(&changed);
    if taken {
        *case = changed;
    }
    taken
}

#[cfg(test)]
mod tests {
    use super::*;
    use crate::generate;

    #[test]
    fn only_the_calls_that_matter_are_left() {
        let is_reset = |call: &Call| *call == Call::Reset;
        let case = (0..)
            .map(|run| generate::case(1, run))
            .find(|case| case.calls.iter().filter(|call| is_reset(call)).count() >= 2)
            .unwrap();
        let shrunk = shrink(case, |case| {
            case.calls.iter().filter(|call| is_reset(call)).count() >= 2
        });
        assert_eq!(shrunk.to_string(), "case flat\nreset\nreset\n");
    }

    #[test]
    fn data_is_shortened_as_far_as_it_goes() {
        let long = Data::repeated(7, 700).joined(Data::repeated(9, 40));
        let write = Command::new(3, vec![0x2A, 8, 0, 0, 0, 9, 0, 0, 1, 0, 5]);
        let case = Case {
            pile: Pile::new("card+table".parse().unwrap()),
            calls: vec![Call::Command(write.with_out(long).with_room(4))],
        };
        let shrunk = shrink(case, |case| match &case.calls[..] {
            [Call::Command(command)] => command.out.len() >= 512,
            _ => false,
        });
        let script = shrunk.script();
        assert_eq!(script, "command 0 2a0000000000 out 01x512\n");
    }
}
