//! What the comparisons have to see, by kind: empty ears (document 02, Note 2) by their answer, crossed ears, whose
//! answer document 02, Note 3, changed, by what else is wrong with them, zones (Note 4) by their answer, and of Note 6 third
//! walks beside those before the note, and bringing over by its answer; of Note 7 the ducts of lines by their writing,
//! and sessions added to a report by what its ducts cost; and routes (Note 8) by their answer.

use std::collections::BTreeMap;

use crate::lines::{read_form, Form};
use crate::network::Link;

/// Ears, ducts, zones or walks counted by kind.
pub trait Seen {
    /// What is counted.
    const WHAT: &'static str;

    /// How often each kind was seen.
    fn times(&self) -> Vec<(&'static str, usize)>;

    /// The kinds that were never seen.
    fn missing(&self) -> Vec<String> {
        let never = self.times().into_iter().filter(|(_, times)| *times == 0);
        never.map(|(kind, _)| format!("{} {kind}", Self::WHAT)).collect()
    }

    /// The counts as they are told.
    fn told(&self) -> String {
        let told: Vec<String> = self.times().iter().map(|(kind, times)| format!("{times} {kind}")).collect();
        told.join(", ")
    }
}

#[derive(Clone, Debug, Default)]
pub struct EmptyEars {
    taking: usize,
    none_left: usize,
    /// By number.
    refused: BTreeMap<u16, usize>,
}

impl EmptyEars {
    /// Counts an empty ear by the links that it took, or by the number of its refusal.
    pub fn add(&mut self, answer: Result<usize, u16>) {
        *match answer {
            Ok(0) => &mut self.none_left,
            Ok(_) => &mut self.taking,
            Err(number) => self.refused.entry(number).or_default(),
        } += 1;
    }
}

impl Seen for EmptyEars {
    const WHAT: &'static str = "an empty ear";

    fn times(&self) -> Vec<(&'static str, usize)> {
        let refused = |number| self.refused.get(&number).copied().unwrap_or(0);
        vec![
            ("taking links", self.taking),
            ("with none left", self.none_left),
            ("refused 7", refused(7)),
            ("refused 19", refused(19)),
            ("refused 22", refused(22)),
        ]
    }
}

/// The two cases of Note 3: a later ear that passes 7 to 10, runs through a born switch, and was not 14 before.
#[derive(Clone, Copy, Debug, PartialEq, Eq)]
pub enum Crossed {
    /// It has three or more numbers and a used link.
    UsedLink,
    /// An end is unborn, and no link is used.
    UnbornEnd,
}

#[derive(Clone, Debug, Default)]
pub struct CrossedEars {
    used_link: usize,
    unborn_end: usize,
}

impl CrossedEars {
    pub fn add(&mut self, crossed: Crossed) {
        *match crossed {
            Crossed::UsedLink => &mut self.used_link,
            Crossed::UnbornEnd => &mut self.unborn_end,
        } += 1;
    }
}

impl Seen for CrossedEars {
    const WHAT: &'static str = "a crossed ear";

    fn times(&self) -> Vec<(&'static str, usize)> {
        vec![("over a used link", self.used_link), ("with an unborn end", self.unborn_end)]
    }
}

/// Third walks beside those by the lowest number. A walk that is as long as that one is the same: its first switch but
/// one is the lowest of all later-born neighbours, and so of those with the shortest walks.
#[derive(Clone, Debug, Default)]
pub struct ThirdWalks {
    shorter: usize,
    same: usize,
    tied: usize,
}

impl ThirdWalks {
    /// Counts a walk by its length and that of the one before the note; `tied` where several neighbours are as near.
    pub fn add(&mut self, length: usize, before: usize, tied: bool) {
        *if length < before { &mut self.shorter } else { &mut self.same } += 1;
        self.tied += usize::from(tied);
    }
}

impl Seen for ThirdWalks {
    const WHAT: &'static str = "a third walk";

    fn times(&self) -> Vec<(&'static str, usize)> {
        vec![
            ("shorter than by the lowest number", self.shorter),
            ("the same as by it", self.same),
            ("by the lowest of several as short", self.tied),
        ]
    }
}

/// The ducts of link lines by their writing, and repeated links that are in another duct.
#[derive(Clone, Debug, Default)]
pub struct Ducts {
    none: usize,
    some: usize,
    zero: usize,
    over: usize,
    ill_written: usize,
    repeated: usize,
}

impl Ducts {
    /// Counts a line that is collected as this link.
    pub fn add_link(&mut self, line: &[u8], link: &Link) {
        *match link.duct {
            0 if !names_duct(line) => &mut self.none,
            0 => &mut self.zero,
            _ => &mut self.some,
        } += 1;
    }

    /// Counts a line that is no form, where it is a link with a duct over 255, or names a duct otherwise.
    pub fn add_unread(&mut self, line: &[u8]) {
        if is_over(line) {
            self.over += 1;
        } else if names_duct(line) {
            self.ill_written += 1;
        }
    }

    /// Counts a refusal 4 at this place where the link there has another duct than all that it repeats.
    pub fn add_repeat(&mut self, links: &[Link], place: usize) {
        let Some((link, earlier)) = links.get(..=place).and_then(<[Link]>::split_last) else { return };
        let same = |other: &&Link| other.pair() == link.pair();
        self.repeated += usize::from(earlier.iter().filter(same).all(|other| other.duct != link.duct));
    }
}

impl Seen for Ducts {
    const WHAT: &'static str = "a duct";

    fn times(&self) -> Vec<(&'static str, usize)> {
        vec![
            ("not written", self.none),
            ("of 1 to 255", self.some),
            ("written as 0", self.zero),
            ("over 255", self.over),
            ("that is no form", self.ill_written),
            ("that differs in a repeated link", self.repeated),
        ]
    }
}

fn names_duct(line: &[u8]) -> bool {
    line.windows(5).any(|word| word == b"(duct")
}

/// Whether a line is that of a link but for its duct, a number of three digits or more that begins with no 0.
fn is_over(line: &[u8]) -> bool {
    let parts = std::str::from_utf8(line).ok().and_then(|line| line.strip_suffix("))")?.split_once(" (duct "));
    let Some((link, duct)) = parts else { return false };
    let is_link = matches!(read_form(format!("{link})").as_bytes()), Some(Form::Link(_)));
    is_link && duct.len() > 2 && !duct.starts_with('0') && duct.bytes().all(|byte| byte.is_ascii_digit())
}

/// Calls for zones. Wrong sizes are counted again where their sum wraps to N, and where the slice is too short besides.
#[derive(Clone, Debug, Default)]
pub struct Zones {
    given: usize,
    /// By number.
    refused: BTreeMap<u16, usize>,
    wrapped: usize,
    too_short: usize,
}

impl Zones {
    /// Counts a call by its answer, with the N of the session and the room that it was lent.
    pub fn add(&mut self, refused: Option<u16>, sizes: [u16; 3], n: u16, room: usize) {
        let Some(number) = refused else {
            self.given += 1;
            return;
        };
        *self.refused.entry(number).or_default() += 1;
        if number == 24 {
            let wraps = !sizes.contains(&0) && sizes.iter().fold(0u16, |sum, &size| sum.wrapping_add(size)) == n;
            self.wrapped += usize::from(wraps);
            self.too_short += usize::from(room < n.into());
        }
    }
}

impl Seen for Zones {
    const WHAT: &'static str = "zones";

    fn times(&self) -> Vec<(&'static str, usize)> {
        let refused = |number| self.refused.get(&number).copied().unwrap_or(0);
        vec![
            ("given", self.given),
            ("refused 18", refused(18)),
            ("refused 19", refused(19)),
            ("refused 21", refused(21)),
            ("refused 24", refused(24)),
            ("refused 24 for a sum that wraps", self.wrapped),
            ("refused 24 in a slice too short", self.too_short),
        ]
    }
}

/// Calls that bring over, by their answer.
#[derive(Clone, Debug, Default)]
pub struct BroughtOver {
    changed: usize,
    same: usize,
    /// By number.
    refused: BTreeMap<u8, usize>,
}

impl BroughtOver {
    /// Counts a call by whether it changed tree 3, or by the number of its refusal.
    pub fn add(&mut self, answer: Result<bool, u8>) {
        *match answer {
            Ok(true) => &mut self.changed,
            Ok(false) => &mut self.same,
            Err(number) => self.refused.entry(number).or_default(),
        } += 1;
    }
}

impl Seen for BroughtOver {
    const WHAT: &'static str = "bringing over";

    fn times(&self) -> Vec<(&'static str, usize)> {
        let refused = |number| self.refused.get(&number).copied().unwrap_or(0);
        vec![
            ("with another tree 3", self.changed),
            ("with the same", self.same),
            ("refused 19", refused(19)),
            ("refused 21", refused(21)),
        ]
    }
}

/// Sessions added to a report, by the walks that are lost when a duct fails, or by the number of the refusal.
#[derive(Clone, Debug, Default)]
pub struct Reports {
    none: usize,
    two: usize,
    three: usize,
    /// By number.
    refused: BTreeMap<u8, usize>,
}

impl Reports {
    /// Counts a session by whether a switch loses two walks to a duct, and whether one loses all three.
    pub fn add(&mut self, answer: Result<[bool; 2], u8>) {
        match answer {
            Ok([two, three]) => {
                self.none += usize::from(!two && !three);
                self.two += usize::from(two);
                self.three += usize::from(three);
            }
            Err(number) => *self.refused.entry(number).or_default() += 1,
        }
    }
}

impl Seen for Reports {
    const WHAT: &'static str = "a session of a report";

    fn times(&self) -> Vec<(&'static str, usize)> {
        let refused = |number| self.refused.get(&number).copied().unwrap_or(0);
        vec![
            ("with none lost", self.none),
            ("with two walks lost", self.two),
            ("with all three lost", self.three),
            ("refused 19", refused(19)),
            ("refused 21", refused(21)),
            ("refused 25", refused(25)),
        ]
    }
}

/// Calls for routes. Granted ones are counted by their answer, and again by the stage of the session; of the refused ones 26
/// again where the slice is too short besides.
#[derive(Clone, Debug, Default)]
pub struct Routes {
    walks: usize,
    direct: usize,
    /// By the count of things.
    parted: [usize; 3],
    direct_parts: usize,
    open: usize,
    closed: usize,
    /// By number.
    refused: BTreeMap<u8, usize>,
    too_short: usize,
}

impl Routes {
    /// Counts a call that was granted by the numbers of its answer, and by whether the session is open.
    pub fn add(&mut self, told: &[u16], is_open: bool) {
        let (counts, things) = (&told[..3], &told[3..8]);
        if counts == [0; 3] {
            self.parted[usize::from(things[0]).min(2)] += 1;
            self.direct_parts += usize::from(things[1] == 2 || things[3] == 2);
        } else {
            self.walks += 1;
            self.direct += usize::from(counts.contains(&2));
        }
        *if is_open { &mut self.open } else { &mut self.closed } += 1;
    }

    /// Counts a call that was refused, with the N of the session and the room that it was lent.
    pub fn add_refused(&mut self, number: u8, n: u16, room: usize) {
        *self.refused.entry(number).or_default() += 1;
        self.too_short += usize::from(number == 26 && room < usize::from(n) + 4);
    }
}

impl Seen for Routes {
    const WHAT: &'static str = "routes";

    fn times(&self) -> Vec<(&'static str, usize)> {
        let refused = |number| self.refused.get(&number).copied().unwrap_or(0);
        vec![
            ("by three walks", self.walks),
            ("with the direct link", self.direct),
            ("parted by nothing", self.parted[0]),
            ("parted by one thing", self.parted[1]),
            ("parted by two", self.parted[2]),
            ("parted with the direct link", self.direct_parts),
            ("on an open session", self.open),
            ("on a closed session", self.closed),
            ("refused 18", refused(18)),
            ("refused 19", refused(19)),
            ("refused 26", refused(26)),
            ("refused 26 in a slice too short", self.too_short),
        ]
    }
}
