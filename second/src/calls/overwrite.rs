//! Overwrites the memory of a session or of a report: a number, an array, some numbers or all, at random or all alike.
//! The stage is then set, most times, so that calls get past the checks of the state.

use crate::archive::{Report, Session, NUMBERS};
use crate::ducts::MOST_SESSIONS;
use crate::network::MAX_LINKS;
use crate::random::Random;

/// Overwrites the session in a way that the seed alone decides.
pub fn overwrite(session: &mut Session, seed: u64) {
    let mut random = Random::new(seed, 0);
    let random = &mut random;
    for _ in 0..random.within(1, 3) {
        match random.below(14) {
            0 => session.numbers_mut().iter_mut().for_each(|number| *number = random.number() as u16),
            1 => session.numbers_mut().fill(*random.pick(&[0xffff, 0, 1, 3, 0x0101])),
            2 => some_numbers(session, random),
            3..=6 => one_number(session, random),
            7 if random.chance(50) => random_bytes(&mut session.ducts, random),
            7 => random_bytes(&mut session.used, random),
            8 | 9 => moved(session, random),
            _ => one_row(session, random),
        }
    }
    if random.chance(85) {
        session.stage = *random.pick(&[0, 1, 1, 1, 2, 2, 3, 256, 65535]);
    }
}

fn some_numbers(session: &mut Session, random: &mut Random) {
    let numbers = session.numbers_mut();
    for _ in 0..random.within(1, 200) {
        numbers[random.below(NUMBERS)] = random.number() as u16;
    }
}

/// A number of any size, most often near a limit.
fn number(random: &mut Random) -> u16 {
    match random.below(4) {
        0 => random.number() as u16,
        1 => random.below(20) as u16,
        _ => *random
            .pick(&[0, 1, 2, 3, 4, 255, 256, 1023, 1024, 1025, 4095, 4096, 4097, 8191, 8192, 32768, 65534, 65535]),
    }
}

fn one_number(session: &mut Session, random: &mut Random) {
    let Session { stage, n, m, root, first, last, longs, born, .. } = session;
    let at = random.below(8);
    *[stage, n, m, root, first, last, longs, born][at] = number(random);
}

fn random_bytes(row: &mut [u8], random: &mut Random) {
    let whole = random.chance(70);
    let value = *random.pick(&[0, 1, 2, 255]);
    row.iter_mut().filter(|_| whole || random.chance(50)).for_each(|entry| *entry = value);
}

/// The network with all its numbers raised, most often past the end of the arrays, and without an ear most times.
fn moved(session: &mut Session, random: &mut Random) {
    let by = *random.pick(&[0, 1000, 1010, 1018, 1024, 5000, 65000]);
    let count = 2 * usize::from(session.m).min(MAX_LINKS);
    let Session { n, root, first, last, links, .. } = session;
    for number in links[..count].iter_mut().chain([n, root, first, last]) {
        *number = number.wrapping_add(by);
    }
    if random.chance(70) {
        session.used.fill(0);
        session.births.fill(0);
        session.born = 0;
        session.longs = 0;
    }
}

/// One row of 16-bit numbers: all alike, small, any, or the numbers it has in another order.
fn one_row(session: &mut Session, random: &mut Random) {
    let Session { links, births, order, tree1, tree2, tree3, .. } = session;
    let rows: [&mut [u16]; 6] = [links, births, order, tree1, tree2, tree3];
    let row = rows.into_iter().nth(random.below(6)).expect("there are six rows");
    let length = if random.chance(50) { row.len() } else { random.below(30) };
    let row = &mut row[..length];
    let limit = random.within(1, 20);
    match random.below(5) {
        0 => row.fill(number(random)),
        1 => row.iter_mut().for_each(|entry| *entry = random.below(limit) as u16),
        2 => row.iter_mut().for_each(|entry| *entry = random.number() as u16),
        3 => random.shuffle(row),
        _ => row.iter_mut().enumerate().for_each(|(at, entry)| *entry = at as u16 + 1),
    }
}

/// A report that no calls made, or one as if sessions without ducts had been added besides, most often nearly full.
pub fn other_report(report: &Report, random: &mut Random) -> Box<Report> {
    let mut other = Box::new(report.clone());
    other.sessions = match random.below(6) {
        0 => random.number() as u16,
        1 => random.below(3) as u16,
        _ => MOST_SESSIONS - random.below(4) as u16,
    };
    other.unused = random.number() as u16;
    let value = *random.pick(&[0, 1, 65535, u32::MAX / 2, u32::MAX - 2000, u32::MAX - 3, u32::MAX]);
    let rows = [&mut other.two, &mut other.three];
    match random.below(8) {
        0 => rows.into_iter().for_each(|row| row.fill(value)),
        1 => rows.into_iter().flatten().for_each(|entry| *entry = random.number() as u32),
        2 => rows.into_iter().for_each(|row| row[random.below(256)] = value),
        _ => {}
    }
    other
}
