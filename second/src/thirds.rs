//! Tree 3 by two rules: the lowest number (document 01), and the shortest third walk (document 02, Note 6). Both are one
//! pass over the neighbours of every switch.

use crate::network::{Network, MAX_SWITCHES};

/// How tree 3 chooses among the neighbours born in a later ear.
#[derive(Clone, Copy, Debug, PartialEq, Eq)]
pub enum Rule {
    /// The lowest number: document 01, before Note 6.
    Lowest,
    /// One whose own third walk is shortest, and the lowest number among those.
    Shortest,
    /// A fault put in on purpose: the highest number among those.
    ShortestHighest,
}

impl Rule {
    /// Writes the entry of every switch. The long ears are those of a closed list.
    pub fn write(self, network: &Network, births: &[u16], long_ears: &[Vec<u16>], row: &mut [u16]) {
        match self {
            Rule::Lowest => write_lowest(network, births, row),
            Rule::Shortest => write_shortest::<0>(network, long_ears, row),
            Rule::ShortestHighest => write_shortest::<{ u16::MAX }>(network, long_ears, row),
        }
    }
}

/// Last has parent root; any other switch has the lowest-numbered of its neighbours born in a later ear. Neighbours are
/// sorted by number.
fn write_lowest(network: &Network, births: &[u16], row: &mut [u16]) {
    for (s, entry) in row.iter_mut().enumerate() {
        let later = network.neighbours(s as u16).iter().find(|other| births[other.switch as usize] > births[s]);
        *entry = later.map_or(network.root, |other| other.switch);
    }
    row[network.root as usize] = network.root;
}

/// A third walk as one number: its length above, its switch below, so that the least of several is the shortest, and the
/// lowest number among those. One that is not known yet is more than any that is.
const UNKNOWN: u32 = u32::MAX;
const ONE_LONGER: u32 = 1 << 16;

/// The long ears from the last one back: when an ear is reached, the walks of the switches born later are known and no
/// others, so that a neighbour with a known walk is one born later. Then its own switches get theirs. The root's is
/// never known: it is born in the first ear, and nobody is born before. `TURNED` is 0, or `u16::MAX`, which turns the
/// numbers round.
fn write_shortest<const TURNED: u16>(network: &Network, long_ears: &[Vec<u16>], row: &mut [u16]) {
    let mut walks = [UNKNOWN; MAX_SWITCHES];
    let walk = |length: u32, switch: u16| length | u32::from(switch ^ TURNED);
    row[network.last as usize] = network.root;
    walks[network.last as usize] = walk(2 * ONE_LONGER, network.last);
    // The last long ear has last as its only new switch.
    for (at, ear) in long_ears.iter().enumerate().rev().skip(1) {
        let new = if at == 0 { &ear[1..] } else { &ear[1..ear.len() - 1] };
        for &s in new {
            let mut least = walk(UNKNOWN << 16, network.root);
            for other in network.neighbours(s) {
                least = least.min(walks[other.switch as usize]);
            }
            row[s as usize] = least as u16 ^ TURNED;
        }
        for &s in new {
            let length = walks[row[s as usize] as usize] >> 16 << 16;
            walks[s as usize] = walk(length.saturating_add(ONE_LONGER), s);
        }
    }
    row[network.root as usize] = network.root;
}
