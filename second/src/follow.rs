//! Follows a script and the output that answers it, line by line, and holds
//! the answers against the brute-force definitions.

use std::collections::BTreeMap;

use crate::brute;
use crate::later::Later;
use crate::lines::{read_form, Form, LINES, LINE_BYTES};
use crate::network::{Site, MAX_LINKS};
use crate::seen::{CrossedEars, Ducts, EmptyEars, Seen, ThirdWalks};

/// Networks of up to this many switches are judged by brute force.
pub const SMALL: u16 = 10;

/// What was seen; kept over many scripts.
#[derive(Clone, Debug, Default)]
pub struct Counts {
    pub scripts: usize,
    pub lines: usize,
    pub opened: usize,
    pub ears: usize,
    pub empty_ears: EmptyEars,
    pub crossed_ears: CrossedEars,
    pub closed: usize,
    pub cleared: usize,
    pub unread: usize,
    pub ducts: Ducts,
    pub walks: usize,
    pub third_walks: ThirdWalks,
    /// Lists judged by Definition 9 at a `(close)`, and how many of them it accepts.
    pub lists_judged: usize,
    pub lists_accepted: usize,
    /// Switches whose three walks were checked; sites with all walks checked.
    pub switches_checked: usize,
    pub sites_checked: usize,
    /// Refusals by number, each with its places and how often.
    pub refusals: BTreeMap<u16, BTreeMap<u16, usize>>,
}

impl Counts {
    /// The ears, walks and ducts that were never seen.
    pub fn missing(&self) -> Vec<String> {
        let ears = [self.empty_ears.missing(), self.crossed_ears.missing()].concat();
        [ears, self.third_walks.missing(), self.ducts.missing()].concat()
    }
}

/// A loaded network and what happened to it. The lists have the short ears of accepted empty ears written out.
struct Loaded {
    site: Site,
    offered: Vec<Vec<u16>>,
    accepted: Vec<Vec<u16>>,
    closed: bool,
    walks: BTreeMap<(u16, u16), Vec<u16>>,
}

/// The lines of a script that are read; a line may be too long to be a form.
pub fn lines_of(script: &[u8]) -> impl Iterator<Item = &[u8]> {
    let body = script.strip_suffix(b"\n").unwrap_or(script);
    body.split(|&byte| byte == b'\n').take(if script.is_empty() { 0 } else { LINES })
}

/// Checks one output against its script.
pub fn follow(script: &[u8], output: &[u8], counts: &mut Counts) -> Result<(), String> {
    counts.scripts += 1;
    let mut answers = lines_of(output);
    let mut collected = Site::default();
    let mut loaded: Option<Loaded> = None;
    if !output.is_empty() && !output.ends_with(b"\n") {
        return Err("the output does not end with a line feed".into());
    }
    for (at, line) in lines_of(script).enumerate() {
        counts.lines += 1;
        let form = if line.len() > LINE_BYTES { None } else { read_form(line) };
        match form {
            Some(Form::Net { switches, root, first, last }) => {
                collected = Site { switches, root, first, last, links: collected.links };
                continue;
            }
            Some(Form::Link(link)) if collected.links.len() < MAX_LINKS => {
                counts.ducts.add_link(line, &link);
                collected.links.push(link);
                continue;
            }
            _ => {}
        }
        let answer = answers.next().ok_or(format!("line {} has no answer", at + 1))?;
        let answer = Answer::read(answer).ok_or(format!("the answer to line {} is no answer", at + 1))?;
        if let Answer::Refused(number, place) = answer {
            *counts.refusals.entry(number).or_default().entry(place).or_default() += 1;
        }
        let checked = match form {
            None | Some(Form::Link(..)) | Some(Form::Net { .. }) => {
                counts.unread += 1;
                if form.is_none() {
                    counts.ducts.add_unread(line);
                }
                if answer != Answer::Unread(at as u16 + 1) {
                    return Err(format!("line {} is no form and is not answered so", at + 1));
                }
                break;
            }
            Some(Form::Clear) => {
                counts.cleared += 1;
                collected = Site::default();
                check_walks(loaded.take(), counts).and(expect(answer == Answer::Cleared))
            }
            Some(Form::Open) => check_open(&collected, &mut loaded, answer, counts),
            Some(Form::Ear(ear)) => check_ear(ear, &mut loaded, answer, counts),
            Some(Form::Close) => check_close(&mut loaded, answer, counts),
            Some(Form::Walk { switch, tree }) => check_walk(switch, tree, &mut loaded, answer, counts),
        };
        checked.map_err(|what| format!("line {}: {what}", at + 1))?;
    }
    if answers.next().is_some() {
        return Err("there are more answers than lines that ask".into());
    }
    check_walks(loaded, counts)
}

fn expect(holds: bool) -> Result<(), String> {
    if holds {
        Ok(())
    } else {
        Err("this answer cannot stand here".into())
    }
}

fn check_open(
    collected: &Site,
    loaded: &mut Option<Loaded>,
    answer: Answer,
    counts: &mut Counts,
) -> Result<(), String> {
    if loaded.is_some() {
        return expect(answer == Answer::Refused(20, 0));
    }
    let small = collected.switches <= SMALL;
    match answer {
        Answer::Opened(n, m) => {
            counts.opened += 1;
            expect(n == collected.switches && m as usize == collected.links.len())?;
            if small && !brute::is_network(collected) {
                return Err("opened, and it is no network".into());
            }
            *loaded = Some(Loaded {
                site: collected.clone(),
                offered: Vec::new(),
                accepted: Vec::new(),
                closed: false,
                walks: BTreeMap::new(),
            });
            Ok(())
        }
        Answer::Refused(1..=6, _) if small && brute::is_network(collected) => {
            Err("refused, and it is a network".into())
        }
        Answer::Refused(4, place) => {
            counts.ducts.add_repeat(&collected.links, place.into());
            Ok(())
        }
        answer => expect(matches!(answer, Answer::Refused(1..=6, _))),
    }
}

fn check_ear(ear: Vec<u16>, loaded: &mut Option<Loaded>, answer: Answer, counts: &mut Counts) -> Result<(), String> {
    if let (true, Answer::Refused(number, _)) = (ear.is_empty(), &answer) {
        counts.empty_ears.add(Err(*number));
    }
    let Some(loaded) = loaded else {
        return expect(answer == Answer::Refused(19, 0));
    };
    if loaded.closed {
        return expect(answer == Answer::Refused(22, 0));
    }
    if ear.is_empty() && !loaded.accepted.is_empty() {
        return check_empty_ear(loaded, answer, counts);
    }
    check_crossed_ear(&ear, loaded, &answer, counts)?;
    loaded.offered.push(ear.clone());
    match answer {
        Answer::New(new) if !ear.is_empty() => {
            counts.ears += 1;
            let born = |s: &&u16| loaded.accepted.iter().any(|earlier| earlier.contains(s));
            if loaded.site.switches <= SMALL && ear.iter().filter(|s| !born(s)).count() != new as usize {
                return Err("this is not the number of new switches".into());
            }
            loaded.accepted.push(ear);
            Ok(())
        }
        Answer::Refused(number, place) if ear.is_empty() => expect((number, place) == (7, 0)),
        answer => expect(matches!(answer, Answer::Refused(7..=16, _))),
    }
}

/// Document 02, Note 3: the two cases are 14 at the first born switch between the ends, and 11 is for two numbers only.
fn check_crossed_ear(ear: &[u16], loaded: &Loaded, answer: &Answer, counts: &mut Counts) -> Result<(), String> {
    if let Answer::Refused(11, place) = answer {
        expect(ear.len() == 2 && *place == 0)?;
    }
    let Some(crossed) = brute::crossed(&loaded.site, &loaded.accepted, ear) else {
        return Ok(());
    };
    counts.crossed_ears.add(crossed);
    let place = brute::crossed_at(&loaded.accepted, ear).ok_or("an ear over a used link crosses no born switch")?;
    expect(*answer == Answer::Refused(14, place as u16))
}

/// After the first ear an empty one is granted, and stands for short ears.
fn check_empty_ear(loaded: &mut Loaded, answer: Answer, counts: &mut Counts) -> Result<(), String> {
    expect(answer == Answer::New(0))?;
    let short = brute::leftover(&loaded.site, &loaded.accepted);
    counts.ears += 1;
    counts.empty_ears.add(Ok(short.len()));
    loaded.offered.extend(short.clone());
    loaded.accepted.extend(short);
    Ok(())
}

fn check_close(loaded: &mut Option<Loaded>, answer: Answer, counts: &mut Counts) -> Result<(), String> {
    let Some(loaded) = loaded else {
        return expect(answer == Answer::Refused(19, 0));
    };
    if loaded.closed {
        return expect(answer == Answer::Refused(22, 0));
    }
    expect(matches!(answer, Answer::Closed | Answer::Refused(23, _)))?;
    let closed = answer == Answer::Closed;
    if loaded.site.switches <= SMALL {
        counts.lists_judged += 1;
        // The accepted ears close exactly when they are such a sequence, and
        // the whole list as offered is taken exactly when it is one.
        if brute::is_mondschein(&loaded.site, &loaded.accepted) != closed {
            return Err(format!("Definition 9 says {} of the accepted ears", !closed));
        }
        let all_taken = closed && loaded.offered.len() == loaded.accepted.len();
        if brute::is_mondschein(&loaded.site, &loaded.offered) != all_taken {
            return Err(format!("Definition 9 says {} of the offered ears", !all_taken));
        }
        counts.lists_accepted += usize::from(closed);
    }
    if closed {
        counts.closed += 1;
        loaded.closed = true;
    }
    Ok(())
}

fn check_walk(
    switch: u16,
    tree: u16,
    loaded: &mut Option<Loaded>,
    answer: Answer,
    counts: &mut Counts,
) -> Result<(), String> {
    let Some(loaded) = loaded else {
        return expect(answer == Answer::Refused(19, 0));
    };
    if !loaded.closed {
        return expect(answer == Answer::Refused(21, 0));
    }
    if switch >= loaded.site.switches || !(1..=3).contains(&tree) {
        return expect(answer == Answer::Refused(17, 0));
    }
    match answer {
        Answer::Walk(s, t, walk) => {
            counts.walks += 1;
            expect(s == switch && t == tree)?;
            loaded.walks.insert((switch, tree), walk);
            Ok(())
        }
        _ => expect(false),
    }
}

/// Demand 3 on the walks printed for a closed session.
fn check_walks(loaded: Option<Loaded>, counts: &mut Counts) -> Result<(), String> {
    let Some(Loaded { site, accepted, walks, .. }) = loaded else {
        return Ok(());
    };
    check_third_walks(&site, &accepted, &walks, counts)?;
    for s in 0..site.switches {
        let three = [1, 2, 3].map(|tree| walks.get(&(s, tree)).map(Vec::as_slice));
        if let [Some(one), Some(two), Some(three)] = three {
            counts.switches_checked += 1;
            if s == site.root {
                expect([one, two, three].iter().all(|walk| *walk == [site.root]))?;
                continue;
            }
            brute::no_two_walks_share(&site, s, [one, two, three])?;
            if site.switches <= SMALL {
                brute::any_two_losses_survived(&site, s, [one, two, three])?;
            }
        }
    }
    if walks.len() != 3 * site.switches as usize {
        return Ok(());
    }
    counts.sites_checked += 1;
    let entry = |s: u16, tree: u16| {
        let walk = &walks[&(s, tree)];
        walk.get(1).copied().unwrap_or(s)
    };
    let tables = [1, 2, 3].map(|tree| (0..site.switches).map(|s| entry(s, tree)).collect::<Vec<u16>>());
    brute::are_spanning_trees(&site, &tables)?;
    // A walk is the switch, followed by the walk of its parent.
    for (&(s, tree), walk) in &walks {
        if s != site.root && walk[1..] != walks[&(entry(s, tree), tree)] {
            return Err(format!("walk {s} {tree} is not followed by the walk of its parent"));
        }
    }
    Ok(())
}

/// Document 02, Note 6, on the third walks printed: each is the one that a search finds, and no longer than it was before
/// the note. Where all are printed, they follow the rule by themselves.
fn check_third_walks(
    site: &Site,
    accepted: &[Vec<u16>],
    walks: &BTreeMap<(u16, u16), Vec<u16>>,
    counts: &mut Counts,
) -> Result<(), String> {
    let thirds: Vec<(u16, &[u16])> =
        walks.iter().filter(|((_, tree), _)| *tree == 3).map(|((s, _), walk)| (*s, &walk[..])).collect();
    if thirds.is_empty() {
        return Ok(());
    }
    let later = Later::of(site, accepted).ok_or("closed with a switch in no ear")?;
    for &(s, walk) in &thirds {
        later.check_walk(s, walk)?;
        let before = later.lowest_walk(s).ok_or(format!("the walk of {s} by the lowest number does not end"))?;
        if walk.len() > before.len() || walk.len() == before.len() && walk != before {
            return Err(format!("the third walk of {s} is {walk:?}, by the lowest number {before:?}"));
        }
        if s != site.root && s != site.last {
            counts.third_walks.add(walk.len(), before.len(), later.nearest(s).len() > 1);
        }
    }
    if thirds.len() == site.switches as usize {
        later.check_rule(&|s| thirds[s as usize].1)?;
    }
    Ok(())
}

/// One line of output.
#[derive(Clone, Debug, PartialEq, Eq)]
enum Answer {
    Opened(u16, u16),
    New(u16),
    Refused(u16, u16),
    Closed,
    Cleared,
    Unread(u16),
    Walk(u16, u16, Vec<u16>),
}

impl Answer {
    fn read(line: &[u8]) -> Option<Answer> {
        let text = std::str::from_utf8(line).ok()?.strip_prefix('(')?.strip_suffix(')')?;
        let mut parts = text.splitn(2, ' ');
        let word = parts.next()?;
        let rest = parts.next().unwrap_or("");
        if word == "walk" {
            let (asked, walk) = rest.strip_suffix(')')?.split_once(" (")?;
            let asked = numbers(asked)?;
            return match asked[..] {
                [switch, tree] => Some(Answer::Walk(switch, tree, numbers(walk)?)),
                _ => None,
            };
        }
        match (word, &numbers(rest)?[..]) {
            ("opened", &[n, m]) => Some(Answer::Opened(n, m)),
            ("new", &[new]) => Some(Answer::New(new)),
            ("refused", &[number, place]) => Some(Answer::Refused(number, place)),
            ("closed", &[]) => Some(Answer::Closed),
            ("cleared", &[]) => Some(Answer::Cleared),
            ("unread", &[line]) => Some(Answer::Unread(line)),
            _ => None,
        }
    }
}

fn numbers(text: &str) -> Option<Vec<u16>> {
    if text.is_empty() {
        return Some(Vec::new());
    }
    text.split(' ').map(|part| part.parse().ok()).collect()
}
