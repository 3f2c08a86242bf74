//! A session's memory, and a report's, held against the second program, field by field, after a call or an ear that both
//! granted.
//! The second program knows all but the order and trees 1 and 2 of an open session, and the entries past N.

use super::call::Call;
use crate::archive::{self, CLOSED, OPEN};
use crate::ducts::Report;
use crate::judge::Judge;
use crate::network::{Link, Network, MAX_LINKS, MAX_SWITCHES};
use crate::session::Session;
use crate::tables::Tables;

/// The name of a field that the call left wrong, if any.
pub fn wrong_field(call: &Call, memory: &archive::Session, second: &Session) -> Option<&'static str> {
    match (call, second) {
        (Call::Parent { .. } | Call::Walk { .. } | Call::Zones { .. }, _) => None,
        (Call::Routes { .. } | Call::ReportBegin | Call::ReportAdd, _) => None,
        (Call::Ears(_), Session::Empty | Session::Closed(_)) => None,
        (_, Session::Empty) => (*memory != archive::Session::EMPTY).then_some("all of an empty session"),
        (Call::Load(site), Session::Open(judge)) => wrong_loaded(memory, &site.links).or(wrong_open(memory, judge)),
        (_, Session::Open(judge)) => wrong_open(memory, judge),
        (_, Session::Closed(tables)) => wrong_closed(memory, tables),
    }
}

/// A load leaves the links as lent and everything else 0 that `wrong_open` does not see.
fn wrong_loaded(memory: &archive::Session, lent: &[Link]) -> Option<&'static str> {
    let ends: Vec<u16> = lent.iter().flat_map(|link| [link.a, link.b]).collect();
    let (links, rest) = memory.links.split_at(ends.len());
    if links != ends || rest.iter().any(|&number| number != 0) {
        return Some("links");
    }
    if memory.ducts[lent.len()..].iter().any(|&duct| duct != 0) {
        return Some("ducts past the links");
    }
    let rows = [&memory.order, &memory.tree1, &memory.tree2, &memory.tree3];
    rows.iter().any(|row| **row != [0; MAX_SWITCHES]).then_some("order or trees of a network with no ear")
}

fn wrong_open(memory: &archive::Session, judge: &Judge) -> Option<&'static str> {
    let network = &judge.network;
    let mut births = judge.births();
    births.resize(MAX_SWITCHES, 0);
    let mut used = [0; MAX_LINKS];
    (0..network.links).for_each(|link| used[link] = judge.is_used(link).into());
    let born = births.iter().filter(|&&birth| birth != 0).count();
    let numbers = [
        ("stage", memory.stage, OPEN),
        ("n", memory.n, network.switches as u16),
        ("m", memory.m, network.links as u16),
        ("root", memory.root, network.root),
        ("first", memory.first, network.first),
        ("last", memory.last, network.last),
        ("longs", memory.longs, judge.long_ears.len() as u16),
        ("born", memory.born, born as u16),
    ];
    let number = numbers.iter().find(|(_, one, other)| one != other).map(|(name, ..)| *name);
    let ducts = wrong_ducts(memory, network);
    number.or((memory.births[..] != births).then_some("births")).or((memory.used != used).then_some("used")).or(ducts)
}

/// Every call that keeps the network keeps its ducts.
fn wrong_ducts(memory: &archive::Session, network: &Network) -> Option<&'static str> {
    let ducts = network.table.iter().map(|link| link.duct);
    (!memory.ducts.iter().copied().take(network.links).eq(ducts)).then_some("ducts")
}

/// Closing and bringing over leave all but the stage and tree 3 as they were, so that only these, the ducts and what was
/// not seen before are held.
fn wrong_closed(memory: &archive::Session, tables: &Tables) -> Option<&'static str> {
    if memory.stage != CLOSED {
        return Some("stage");
    }
    if memory.order[..tables.switches] != tables.order {
        return Some("order");
    }
    let rows = [("tree1", &memory.tree1, 1), ("tree2", &memory.tree2, 2), ("tree3", &memory.tree3, 3)];
    let wrong = |row: &[u16], tree| (0..tables.switches).any(|s| row[s] != tables.parent(s as u16, tree));
    let row = rows.iter().find(|(_, row, tree)| wrong(*row, *tree)).map(|(name, ..)| *name);
    row.or(wrong_ducts(memory, &tables.network))
}

/// What a granted call of a report left wrong in it, if anything. The second program's is none where it does not know the
/// session that was added: then its count is known. A sum that stood so high before that it may not fit is not known, nor
/// is what becomes of a number other than 0 at place 0.
pub fn wrong_report(
    call: &Call,
    before: &archive::Report,
    after: &archive::Report,
    second: Option<&Report>,
) -> Option<&'static str> {
    if after.unused != before.unused {
        return Some("bytes that are not lent");
    }
    if let Call::ReportBegin = call {
        return (after.second() != Report::EMPTY).then_some("all of an empty one");
    }
    if after.sessions != before.sessions + 1 {
        return Some("the count of sessions");
    }
    let wrong = |before: &[u32], after: &[u32], second: &[u32]| {
        let fits = |duct: &usize| if *duct == 0 { before[0] == 0 } else { before[*duct] <= u32::MAX - 1023 };
        (0..before.len()).filter(fits).any(|duct| after[duct] != second[duct])
    };
    let second = second?;
    let rows = [("two", &before.two, &after.two, &second.two), ("three", &before.three, &after.three, &second.three)];
    rows.into_iter().find(|(_, before, after, second)| wrong(*before, *after, *second)).map(|(name, ..)| name)
}
