//! What a call may answer and leave on an open or closed session that no calls made: what its memory alone decides.
//! Numbers past the end of an array read as 0, a table has at most the array's links, and a walk at most N switches.
//! Tree 3 after close or bringing over is not known there, but nothing else may change.
//! Zones are 1 to 3 there too, and 3 for a switch that stands nowhere in the order.
//! For routes a network has at most the switches of an array; walks and things are not known there.
//! Of a report only its count is known there, and an empty one is always begun.
//! A list of ears answers and leaves what its ears do, offered one by one to another session of the same memory.

use super::call::{Answer, Call, Values};
use crate::archive::{Report, Session, CLOSED, OPEN};
use crate::ducts::MOST_SESSIONS;
use crate::network::MAX_SWITCHES;
use crate::session::ears_of;
use crate::zones::are_sizes;
use crate::{refuse, Refusal};

/// Whether the call may be answered so.
pub fn may_answer(call: &Call, session: &Session, report: &Report, answer: &Answer) -> bool {
    let (is_open, is_full) = (session.stage == OPEN, report.sessions == MOST_SESSIONS);
    let settled = match call {
        Call::Clear => Ok(Vec::new()),
        Call::Load(_) => refuse(20, 0),
        Call::Ear(_) if is_open && call.is_empty_ear() => empty_ear(session),
        Call::Ear(ear) if is_open => return may_judge(ear, &answer.values),
        Call::Routes { from, to, room } => match refused_routes(session, [*from, *to], *room) {
            None => return answer.values.as_ref().is_ok_and(|told| may_be_routes(session, told)),
            Some(number) => refuse(number, 0),
        },
        Call::Ears(list) => return *answer == one_by_one(&mut session.clone(), list),
        Call::Close if is_open => close(session),
        Call::Ear(_) | Call::Close => refuse(22, 0),
        Call::BringOver | Call::Parent { .. } | Call::Walk { .. } if is_open => refuse(21, 0),
        Call::Zones { .. } | Call::ReportAdd if is_open => refuse(21, 0),
        Call::BringOver => Ok(Vec::new()),
        Call::Parent { switch, tree } => row(session, *switch, *tree).map(|row| vec![entry(row, *switch)]),
        Call::Walk { switch, tree, room } => walk(session, *switch, *tree, *room),
        Call::Zones { sizes, .. } if !are_sizes(*sizes, session.n.into()) => refuse(24, 0),
        Call::Zones { room, .. } if *room < session.n.into() => refuse(18, 0),
        Call::Zones { .. } => return answer.values.as_ref().is_ok_and(|zones| may_be_zones(session, zones)),
        Call::ReportBegin => Ok(Vec::new()),
        Call::ReportAdd if is_full => refuse(25, 0),
        Call::ReportAdd => Ok(Vec::new()),
    };
    *answer == Answer { accepted: 0, values: settled }
}

fn empty_ear(session: &Session) -> Values {
    match session.born {
        0 => refuse(7, 0),
        _ => Ok(vec![0]),
    }
}

/// How many links a granted empty ear takes, and the session that it leaves: nothing else of it changes.
pub fn with_leftover_taken(session: &Session) -> (usize, Session) {
    let (mut taken, mut after) = (0, session.clone());
    let is_born = |switch: u16| entry(&session.births, switch) != 0;
    let links = session.links.chunks_exact(2).take(session.m.into());
    for (two, used) in links.zip(&mut after.used) {
        if *used == 0 && is_born(two[0]) && is_born(two[1]) {
            *used = 1;
            taken += 1;
        }
    }
    (taken, after)
}

fn may_judge(ear: &[u16], values: &Values) -> bool {
    match values {
        Err(Refusal { number: 7 | 12, place }) => *place == 0,
        Err(Refusal { number, place }) => (8..=16).contains(number) && *place < ear.len(),
        Ok(new) => new[0] as usize == ear.len() || new[0] as usize + 2 == ear.len(),
    }
}

/// Offers the ears of a list, each by a call of its own. A count past the end is refused as one number alone is.
fn one_by_one(session: &mut Session, list: &[u16]) -> Answer {
    let mut accepted = 0;
    for ear in ears_of(list) {
        let refusal = session.parts().ear(ear.unwrap_or(&[0]), &mut 0);
        if refusal.number != 0 {
            return Answer { accepted, values: refuse(refusal.number, refusal.place.into()) };
        }
        accepted += 1;
    }
    Answer { accepted, values: Ok(Vec::new()) }
}

fn close(session: &Session) -> Values {
    match session.used.iter().take(session.m.into()).position(|&used| used == 0) {
        Some(link) => refuse(23, link),
        None => Ok(Vec::new()),
    }
}

fn row(session: &Session, switch: u16, tree: u16) -> Result<&[u16], Refusal> {
    match tree {
        1..=3 if switch < session.n => Ok([&session.tree1, &session.tree2, &session.tree3][tree as usize - 1]),
        _ => refuse(17, 0),
    }
}

fn entry(row: &[u16], switch: u16) -> u16 {
    row.get(switch as usize).copied().unwrap_or(0)
}

fn walk(session: &Session, switch: u16, tree: u16, room: usize) -> Values {
    let row = row(session, switch, tree)?;
    let mut values = vec![1, switch];
    let mut at = switch;
    while at != session.root && values[0] < session.n {
        at = entry(row, at);
        values.push(at);
        values[0] += 1;
    }
    if values[0] as usize > room {
        return refuse(18, 0);
    }
    Ok(values)
}

fn may_be_zones(session: &Session, zones: &[u16]) -> bool {
    let mut in_order = vec![false; zones.len()];
    for &switch in &session.order {
        if let Some(mark) = in_order.get_mut(switch as usize) {
            *mark = true;
        }
    }
    let may_be = |(zone, in_order): (&u16, bool)| (if in_order { 1..=3 } else { 3..=3 }).contains(zone);
    zones.len() == session.n.into() && zones.iter().zip(in_order).all(may_be)
}

fn switches(session: &Session) -> usize {
    usize::from(session.n).min(MAX_SWITCHES)
}

fn refused_routes(session: &Session, [from, to]: [u16; 2], room: usize) -> Option<u8> {
    let n = switches(session);
    match from == to || usize::from(from.max(to)) >= n {
        true => Some(26),
        false => (room < n + 4).then_some(18),
    }
}

/// Whether these are counts of three walks, no longer than paths are, or things.
fn may_be_routes(session: &Session, told: &[u16]) -> bool {
    let &[one, two, three, things, kind1, thing1, kind2, thing2, ..] = told else {
        return false;
    };
    let is_thing = |at, [kind, thing]: [u16; 2]| match at < things {
        true => kind == 1 || kind == 2,
        false => kind == 0 && thing == 0,
    };
    match [one, two, three] {
        [0, 0, 0] => things <= 2 && is_thing(0, [kind1, thing1]) && is_thing(1, [kind2, thing2]),
        counts => counts.map(usize::from).iter().sum::<usize>() <= 3 * (switches(session) + 2) && told[3..8] == [0; 5],
    }
}

/// Whether a granted call left what it does not set, and set the stage; of a list, whether all is as its ears leave it.
pub fn leaves(call: &Call, before: &Session, after: &Session) -> bool {
    let same_network = network(before) == network(after);
    match call {
        Call::Clear => *after == Session::EMPTY,
        Call::Load(_) => after.stage == OPEN,
        Call::Ear(_) if call.is_empty_ear() => *after == with_leftover_taken(before).1,
        Call::Ear(_) => same_network && after.stage == OPEN && before.tree3 == after.tree3,
        Call::Ears(list) => {
            let mut offered = before.clone();
            one_by_one(&mut offered, list);
            *after == offered
        }
        Call::Close | Call::BringOver => same_network && after.stage == CLOSED && tables(before) == tables(after),
        Call::Parent { .. } | Call::Walk { .. } | Call::Zones { .. } => before == after,
        Call::Routes { .. } | Call::ReportBegin | Call::ReportAdd => before == after,
    }
}

fn network(session: &Session) -> ([u16; 5], &[u16], &[u8]) {
    let Session { n, m, root, first, last, links, ducts, .. } = session;
    ([*n, *m, *root, *first, *last], links, ducts)
}

/// What accepted ears change.
fn tables(session: &Session) -> ([u16; 2], &[u8], [&[u16]; 4]) {
    let Session { longs, born, used, births, order, tree1, tree2, .. } = session;
    ([*longs, *born], used, [births, order, tree1, tree2])
}
