//! Ears that should be refused, ears that are tried blindly, damaged sites
//! and damaged lines.

use crate::judge::Judge;
use crate::lines::link_line;
use crate::network::{Link, Site, MIN_LINKS};
use crate::plan::any_duct;
use crate::random::Random;

/// An ear for an open session, damaged in a random way. `ears` is a list that
/// closes the session's network, `at` how far it has been offered. The ear
/// that is damaged is not empty.
pub fn damaged_ear(random: &mut Random, judge: &Judge, ears: &[Vec<u16>], at: usize) -> Vec<u16> {
    let network = &judge.network;
    let n = network.switches;
    let any = |random: &mut Random| random.below(n) as u16;
    let at = at.min(ears.len() - 1);
    let with_numbers = |ears: &[Vec<u16>]| ears.iter().find(|ear| !ear.is_empty()).cloned();
    let mut ear = with_numbers(&ears[at..]).or(with_numbers(ears)).expect("a list has ears with numbers");
    if random.chance(30) {
        // A long one of those to come.
        for _ in 0..6 {
            let other = random.pick(&ears[at..]);
            if other.len() > ear.len() {
                ear = other.clone();
            }
        }
    }
    match random.below(19) {
        0 => (0..random.below(3)).map(|_| any(random)).collect(),
        1 => (0..n + random.within(1, 3)).map(|i| (i % n) as u16).collect(),
        2 => {
            for _ in 0..random.within(1, 2) {
                let place = random.below(ear.len());
                ear[place] = *random.pick(&[n as u16, n as u16 + 1, 1024, 65535]);
            }
            ear
        }
        3 => {
            for _ in 0..random.within(1, 2) {
                let (from, to) = (random.below(ear.len()), random.below(ear.len()));
                ear[to] = ear[from];
            }
            ear
        }
        4 => {
            // A later ear from a switch back to itself.
            ear.push(ear[0]);
            ear
        }
        5 => {
            let (one, other) = (random.below(ear.len()), random.below(ear.len()));
            ear.swap(one, other);
            ear
        }
        6 => {
            let place = random.below(ear.len());
            ear[place] = any(random);
            ear
        }
        7 => {
            let mut earlier = ears[random.below(at + 1)].clone();
            if random.chance(50) {
                earlier.reverse();
            }
            earlier
        }
        8 => {
            let earlier = with_numbers(&ears[random.below(at + 1)..]).unwrap_or(ear);
            let from = random.below(earlier.len() - 1);
            let to = random.within(from + 1, earlier.len() - 1);
            earlier[from..=to].to_vec()
        }
        9 => vec![network.first, network.root],
        10 => random.pick(ears).clone(),
        11 => joined_ears(random, &ears[at..], ear),
        12 => last_early(random, judge),
        13 => last_by_root(random, judge),
        14 => {
            ear.reverse();
            if random.chance(50) {
                ear.pop();
            }
            ear
        }
        15 => {
            if random.chance(50) {
                ear.remove(0);
            } else {
                ear.pop();
            }
            ear
        }
        16 => blind_path(random, judge),
        17 => crossing_path(random, judge),
        _ => {
            let count = random.within(2, n.min(12));
            (0..count).map(|_| any(random)).collect()
        }
    }
}

/// Two ears as one, where one ends where the other, one to come, begins.
fn joined_ears(random: &mut Random, ears: &[Vec<u16>], ear: Vec<u16>) -> Vec<u16> {
    let mut joined = ear;
    let end = joined[joined.len() - 1];
    let from = random.below(ears.len());
    for other in ears[from..].iter().chain(&ears[..from]) {
        if other.first() == Some(&end) {
            joined.extend(&other[1..]);
            break;
        }
        if other.last() == Some(&end) {
            joined.extend(other.iter().rev().skip(1));
            break;
        }
    }
    joined
}

/// A path with last between its ends.
fn last_early(random: &mut Random, judge: &Judge) -> Vec<u16> {
    let last = judge.network.last;
    let near = judge.network.neighbours(last);
    let mut ear = vec![random.pick(near).switch, last, random.pick(near).switch];
    while random.chance(40) {
        let end = ear[ear.len() - 1];
        ear.push(random.pick(judge.network.neighbours(end)).switch);
    }
    while random.chance(40) {
        let end = ear[0];
        ear.insert(0, random.pick(judge.network.neighbours(end)).switch);
    }
    ear
}

/// Last reached by its link to root.
pub fn last_by_root(random: &mut Random, judge: &Judge) -> Vec<u16> {
    let last = judge.network.last;
    let mut ear = vec![judge.network.root, last, random.pick(judge.network.neighbours(last)).switch];
    if random.chance(50) {
        ear.reverse();
    }
    ear
}

/// A path in the network that does not ask who is born.
fn blind_path(random: &mut Random, judge: &Judge) -> Vec<u16> {
    let network = &judge.network;
    let mut ear = vec![random.below(network.switches) as u16];
    let length = random.within(2, 9);
    while ear.len() < length {
        let near = network.neighbours(ear[ear.len() - 1]);
        if near.is_empty() {
            break;
        }
        let next = random.pick(near).switch;
        if ear.contains(&next) && random.chance(90) {
            break;
        }
        ear.push(next);
    }
    ear
}

/// A path from an unborn switch through a born one, most often over links that are left; blind where there is none.
fn crossing_path(random: &mut Random, judge: &Judge) -> Vec<u16> {
    let network = &judge.network;
    let both_ways = network.table.iter().flat_map(|link| [[link.a, link.b], [link.b, link.a]]);
    let starts: Vec<[u16; 2]> = both_ways.filter(|two| two.map(|s| judge.is_born(s)) == [false, true]).collect();
    if starts.is_empty() {
        return blind_path(random, judge);
    }
    let mut ear = random.pick(&starts).to_vec();
    for _ in 0..random.within(1, 4) {
        let over_used = random.chance(20);
        let near = network.neighbours(ear[ear.len() - 1]).iter();
        let left = near.filter(|other| over_used || !judge.is_used(other.link as usize)).map(|other| other.switch);
        let ways: Vec<u16> = left.filter(|s| !ear.contains(s)).collect();
        if ways.is_empty() {
            break;
        }
        ear.push(*random.pick(&ways));
    }
    if random.chance(50) {
        ear.reverse();
    }
    ear
}

/// An ear that a planner might try next: a cycle from root to first, or a
/// path of unused links from a born switch over unborn ones to a born one.
pub fn tried_ear(random: &mut Random, judge: &Judge) -> Vec<u16> {
    let network = &judge.network;
    let first_ear = !judge.is_born(network.root);
    let born: Vec<u16> = (0..network.switches as u16).filter(|&s| judge.is_born(s)).collect();
    let start = if first_ear { network.root } else { *random.pick(&born) };
    let spare_last = random.chance(if first_ear || born.len() + 1 < network.switches { 85 } else { 0 });
    let mut ear = vec![start];
    for _ in 0..network.switches {
        let end = ear[ear.len() - 1];
        let ways: Vec<u16> = network
            .neighbours(end)
            .iter()
            .filter(|other| !judge.is_used(other.link as usize) && !ear.contains(&other.switch))
            .map(|other| other.switch)
            .filter(|&s| !(spare_last && s == network.last && !judge.is_born(s)))
            .filter(|&s| !(first_ear && ear.len() == 1 && s == network.first))
            .collect();
        if ways.is_empty() {
            break;
        }
        let next = *random.pick(&ways);
        ear.push(next);
        if judge.is_born(next) || (first_ear && next == network.first) {
            break;
        }
    }
    ear
}

/// A tried ear that is refused, if one is found soon; it leaves the list
/// beside it as it is.
pub fn tried_in_vain(random: &mut Random, judge: &Judge) -> Vec<u16> {
    let mut ear = Vec::new();
    for _ in 0..6 {
        ear = tried_ear(random, judge);
        let ends_born = judge.is_born(ear[ear.len() - 1]) || ear[ear.len() - 1] == judge.network.first;
        if ends_born && judge.clone().ear(&ear).is_err() {
            return ear;
        }
    }
    // Cut off its end, but not its only number: refused, as it ends at an unborn switch or is too short.
    ear.truncate((ear.len() - 1).max(1));
    ear
}

/// Damages a site in one random way.
pub fn damage_site(random: &mut Random, site: &mut Site) {
    let n = site.switches;
    let m = site.links.len();
    let large = |random: &mut Random| *random.pick(&[n, n.saturating_add(1), 1024, 65535, n.saturating_mul(2).max(n)]);
    if m == 0 {
        return;
    }
    match random.below(12) {
        0 | 1 => {
            let place = random.below(m);
            let number = large(random);
            if random.chance(50) {
                site.links[place].a = number;
            } else {
                site.links[place].b = number;
            }
        }
        2 | 3 => {
            let place = random.below(m);
            site.links[place].b = site.links[place].a;
        }
        4 | 5 => {
            let link = *random.pick(&site.links);
            let repeat = if random.chance(50) { link } else { link.turned() };
            // Another duct does not make another link.
            let ducts = [link.duct, link.duct ^ 1, any_duct(random), 0];
            let duct = *random.pick(&ducts);
            site.links.insert(random.below(m + 1), repeat.in_duct(duct));
        }
        6 => site.last = *random.pick(&[site.root, site.first, n, 65535]),
        7 => site.first = *random.pick(&[site.root, site.last, n, 65535]),
        8 => site.root = *random.pick(&[site.first, site.last, n, 65535]),
        9 => {
            let named = *random.pick(&[site.first, site.last]);
            let missing = Link::from((site.root, named)).pair();
            site.links.retain(|link| link.pair() != missing);
        }
        10 => site.switches = *random.pick(&[0, 1, 3, n.saturating_sub(1), n.saturating_add(1), 1024, 1025, 65535]),
        _ => site.links.truncate(random.within(0, MIN_LINKS)),
    }
}

/// A line that is a form, with numbers of all sizes.
pub fn form_line(random: &mut Random) -> Vec<u8> {
    let number = |random: &mut Random| match random.below(8) {
        0 => 65535,
        1 => *random.pick(&[9, 10, 99, 100, 255, 256, 257, 999, 1000, 1023, 1024, 1025, 9999, 10000, 65534]),
        _ => random.below(6),
    };
    let (a, b, c, d) = (number(random), number(random), number(random), number(random));
    match random.below(10) {
        0 => format!("(net {a} (root {b}) (first {c}) (last {d}))").into_bytes(),
        1 => format!("(link {a} {b})").into_bytes(),
        8 => format!("(link {a} {b} (duct {}))", if random.chance(30) { 0 } else { any_duct(random) }).into_bytes(),
        2 => b"(open)".to_vec(),
        3 => b"(close)".to_vec(),
        4 => b"(clear)".to_vec(),
        5 | 6 => format!("(walk {a} {b})").into_bytes(),
        7 => {
            let mut line = b"(ear".to_vec();
            for _ in 0..random.below(8) {
                line.extend(format!(" {}", number(random)).into_bytes());
            }
            line.push(b')');
            line
        }
        _ => {
            let length = *random.pick(&[6143, 6144, 6144, 5000]);
            long_ear_line(random, length)
        }
    }
}

/// An ear line of exactly so many bytes, at least 5, not 6.
pub fn long_ear_line(random: &mut Random, length: usize) -> Vec<u8> {
    let mut line = b"(ear".to_vec();
    let mut left = length - 5;
    while left > 0 {
        // A number of 1 to 5 digits and its space; never one byte left over.
        let mut size = random.within(2, 6).min(left);
        if left - size == 1 {
            size = if size > 2 { size - 1 } else { size + 1 };
        }
        let low = [0, 10, 100, 1000, 10000][size - 2];
        let high = [9, 99, 999, 9999, 65535][size - 2];
        line.extend(format!(" {}", random.within(low, high)).into_bytes());
        left -= size;
    }
    line.push(b')');
    line
}

/// A line that most likely is no form.
pub fn malformed_line(random: &mut Random) -> Vec<u8> {
    const BYTES: &[u8] = b"() 0123456789abenrtlox\t\r\0+-.;\xc3\xff";
    let mut line = form_line(random);
    match random.below(16) {
        0 => Vec::new(),
        1 => {
            line.remove(random.below(line.len()));
            line
        }
        2 | 3 => {
            line.insert(random.below(line.len() + 1), *random.pick(BYTES));
            line
        }
        4 => {
            let place = random.below(line.len());
            line[place] = *random.pick(BYTES);
            line
        }
        5 => {
            let place = random.below(line.len());
            line.insert(place, line[place]);
            line
        }
        6 => {
            line.truncate(random.below(line.len()));
            line
        }
        7 => {
            line.push(*random.pick(b" )\r0("));
            line
        }
        8 => line.to_ascii_uppercase(),
        9..=12 => {
            let odd: &[&str] = &[
                "65536",
                "65537",
                "65540",
                "66000",
                "70000",
                "99999",
                "100000",
                "131072",
                "655350",
                "4294967295",
                "4294967296",
                "4294967297",
                "18446744073709551615",
                "18446744073709551616",
                "18446744073709551617",
                "00",
                "01",
                "007",
                "000000",
                "+1",
                "-1",
                "-0",
                "",
                "1.0",
                "0x1",
                "1e1",
                "1_0",
            ];
            let odd = random.pick(odd);
            match random.below(8) {
                0 => format!("(link {odd} 1)"),
                1 => format!("(link 1 {odd})"),
                6 => format!("(link 1 {odd} (duct 7))"),
                7 => format!("(link 1 2 (duct {odd}))"),
                2 => format!("(walk 1 {odd})"),
                3 => format!("(ear 0 {odd} 1)"),
                4 => format!("(net {odd} (root 0) (first 1) (last 3))"),
                _ => format!("(net 4 (root 0) (first 1) (last {odd}))"),
            }
            .into_bytes()
        }
        13 => {
            let length = *random.pick(&[6145, 6146, 12288, 6200]);
            long_ear_line(random, length)
        }
        14 => {
            let word =
                *random.pick(&["(", ")", "()", "(parent 1 2)", "(quit)", "net", "(net)", "(link)", "(walk)", "( ear)"]);
            word.as_bytes().to_vec()
        }
        _ => vec![*random.pick(BYTES); random.within(1, 6146)],
    }
}

/// The line of a link whose duct makes it unread: one over 255, or one that is not written as the form has it.
pub fn unread_duct_line(random: &mut Random, link: &Link) -> String {
    let Link { a, b, .. } = *link;
    if random.chance(65) {
        let over = [256, 257, 263, 300, 511, 512, 999, 1000, 1024, 10000, 65535, 65536, 65537, 65543, 4294967296u64];
        return format!("(link {a} {b} (duct {}))", random.pick(&over));
    }
    let line = link_line(&link.in_duct(any_duct(random)));
    match random.below(14) {
        0 => format!("(link {a} {b} (duct 0{}))", random.below(300)),
        1 => line.replace("))", ")"),
        2 => line.replace("))", ")))"),
        3 => line.replace("(duct", "duct"),
        4 => line.replace("(duct ", "(duct"),
        5 => line.replace(" (duct", "(duct"),
        6 => line.replace(" (duct", "  (duct"),
        7 => line.replace("))", ") )"),
        8 => line.replace("duct", *random.pick(&["Duct", "DUCT", "dukt", "duc", "last", "root", ""])),
        9 => line.replace("))", ") (duct 1))"),
        10 => line.replace("))", " 1))"),
        11 => format!("(link (duct 7) {a} {b})"),
        12 => format!("(link {a} {b} {})", any_duct(random)),
        _ => format!("(link {a} {b} (duct {}))", random.pick(&["", "+7", "-1", "x", "7.0", " 7", "7 ", "00", "000"])),
    }
}
