//! Calls that are lent arrays of other lengths than the struct's.
//! Each is refused by 255 at place 0, and nothing changes.

use super::call::Call;
use super::lent::{Apart, Lengths, Memory, RIGHT};
use super::side::{Fault, Side};
use super::trial::{Finding, Kind};
use crate::archive::{Report, Session, LENGTHS};
use crate::random::Random;

/// Another length of one, two or all of the arrays that the call is lent.
pub fn wrong_lengths(random: &mut Random, call: &Call) -> Lengths {
    let lent: &[usize] = match call {
        Call::Clear | Call::Load(_) => &[0, 1, 2, 3, 4, 5, 6, 7],
        Call::Ear(_) | Call::Ears(_) => &[0, 1, 2, 3, 4, 6],
        Call::Close => &[0, 1, 5, 6],
        Call::BringOver => &[0, 1, 5],
        Call::Parent { .. } | Call::Walk { .. } => &[3, 4, 5],
        Call::Zones { .. } => &[1, 2],
        Call::Routes { .. } => &[0],
        Call::ReportBegin => &[8, 9],
        Call::ReportAdd => &[0, 3, 4, 5, 7, 8, 9],
    };
    let mut lengths = RIGHT;
    let count = *random.pick(&[1, 1, 1, 2, lent.len()]);
    for k in 0..count {
        let at = if count == lent.len() { lent[k] } else { *random.pick(lent) };
        lengths[at] = *random.pick(&[0, RIGHT[at] - 1, RIGHT[at] + 1, 2 * RIGHT[at]]);
    }
    lengths
}

/// Makes the call on a copy of the session with arrays of these lengths.
pub fn make_wrong(
    (session, report): (&Session, &Report),
    call: &Call,
    lengths: Lengths,
    filler: &[u16],
    fault: Fault,
) -> Result<(), Finding> {
    let lengths = if fault == Fault::Lengths { RIGHT } else { lengths };
    let mut side = Side::new(Apart::new(32, 0xC3, lengths), 32, 0xC3C3, true);
    side.memory.set(session);
    side.memory.set_report(report);
    let refusal = side.make(call, filler);
    if refusal != LENGTHS {
        return Finding::of(Kind::Lengths, &format!("arrays of lengths {lengths:?} got {refusal:?}"));
    }
    side.check(call, filler, (session, report), refusal)
}
