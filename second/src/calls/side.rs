//! One copy of a session's memory with what a call on it is lent.
//! After each call the copy tells whether anything changed that must not.

use super::call::{Answer, Call, Outputs, Values};
use super::lent::{Lent, Memory};
use super::trial::{Finding, Kind};
use crate::archive::{Record, Refusal, Report, Session, LENGTHS};
use crate::network::Link;

/// A fault put in on purpose behind a call of the archive, so that a test can see it found.
#[derive(Clone, Copy, Debug, PartialEq, Eq, Default)]
pub enum Fault {
    #[default]
    Nothing,
    /// A refusal changes an entry of the session.
    Session,
    /// A number behind the session changes.
    Behind,
    /// A number that is lent for reading changes.
    Lent,
    /// The byte behind the duct of a link that is lent changes.
    LentLink,
    /// A load leaves another duct of the first link.
    Duct,
    /// An ear changes a duct.
    OtherDuct,
    /// A session that is added to a report counts one switch more for its first duct.
    Report,
    /// One that is refused is counted.
    RefusedReport,
    /// Adding a session to a report changes its tree 3.
    Added,
    /// The number behind a walk changes.
    Rest,
    /// The number behind the zones changes.
    RestOfZones,
    /// One of two equal copies gets another entry.
    Copy,
    /// Arrays of wrong lengths are lent with the right ones.
    Lengths,
    /// The count of a list's ears is one too many where one is refused.
    Accepted,
    /// A list leaves another order than its ears.
    Order,
    /// Zones 1 and 2 are exchanged.
    Zones,
    /// The zone of switch 0 is left as the slice held it.
    Unwritten,
    /// Bringing over leaves another entry of tree 3 for switch 0.
    Third,
    /// Bringing over changes an entry of tree 2.
    OtherTree,
    /// A thing that parts two switches is the first of them.
    End,
    /// The slice is written where things are told.
    Written,
    /// The first of three walks runs from the second switch to the first.
    Turned,
    /// The counts of the first two walks are exchanged.
    Exchanged,
    /// The number behind three walks changes.
    RestOfRoutes,
    /// A refusal of routes gives a count.
    RefusedRoutes,
}

/// What stands where the ears accepted are written, before the call: no half of it is 0.
const UNWRITTEN: usize = usize::MAX / 3;

/// The memory of a session, and what a call on it is lent.
pub struct Side<M> {
    pub memory: M,
    lent: Lent<u16>,
    links: Lent<Record>,
    /// What the byte behind the duct of a link that is lent holds.
    unused: u8,
    out: Lent<u16>,
    value: Lent<u16>,
    accepted: Lent<usize>,
    /// The numbers that routes gave.
    routes: [u16; 8],
}

impl<M: Memory> Side<M> {
    pub fn new(memory: M, guards: usize, mark: u16, nowhere: bool) -> Side<M> {
        let lent = || Lent::new(guards, mark, nowhere);
        let accepted = Lent::new(guards, mark.into(), nowhere);
        let unused = mark as u8;
        let links = Lent::new(guards, Record::of(&Link { a: mark, b: mark, duct: unused }, unused), nowhere);
        Side { memory, lent: lent(), links, unused, out: lent(), value: lent(), accepted, routes: [0; 8] }
    }

    /// Makes a call; the slice lent for writing, and the number that a call may write, hold the start of `filler`.
    pub fn make(&mut self, call: &Call, filler: &[u16]) -> Refusal {
        let unused = self.unused;
        self.lent.fill(call.lent().iter().copied());
        self.links.fill(call.links().iter().map(|link| Record::of(link, unused)));
        self.out.fill(filler[..call.room()].iter().copied());
        self.value.fill(filler[..1].iter().copied());
        self.accepted.fill(std::iter::once(UNWRITTEN));
        call.archive(
            self.memory.both(),
            self.lent.lend(),
            self.links.lend(),
            Outputs {
                out: self.out.lend(),
                value: &mut self.value.lend()[0],
                accepted: &mut self.accepted.lend()[0],
                routes: &mut self.routes,
            },
        )
    }

    /// What the call gave.
    pub fn answer(&mut self, call: &Call, refusal: Refusal) -> Answer {
        Answer { accepted: self.accepted(call, refusal).unwrap_or(0), values: self.values(call, refusal) }
    }

    /// How many ears were accepted, if the call is to write that: a list does, unless arrays have wrong lengths.
    fn accepted(&self, call: &Call, refusal: Refusal) -> Option<usize> {
        match call {
            Call::Ears(_) if refusal != LENGTHS => Some(self.accepted.get()[0]),
            _ => None,
        }
    }

    fn values(&mut self, call: &Call, refusal: Refusal) -> Values {
        if refusal.number != 0 {
            return crate::refuse(refusal.number, refusal.place.into());
        }
        let value = self.value.get()[0];
        Ok(match call {
            Call::Clear | Call::Ears(_) | Call::Close | Call::BringOver => Vec::new(),
            Call::ReportBegin | Call::ReportAdd => Vec::new(),
            Call::Load(_) => {
                let [_, n, m, ..] = self.memory.parts().numbers;
                vec![*n, *m]
            }
            Call::Ear(_) | Call::Parent { .. } => vec![value],
            Call::Walk { .. } => {
                let count = self.out.get().len().min(value.into());
                [&[value], &self.out.get()[..count]].concat()
            }
            Call::Zones { room, .. } => {
                let count = self.written(call, refusal).min(*room);
                self.out.get()[..count].to_vec()
            }
            Call::Routes { room, .. } => {
                let count = self.written(call, refusal).min(*room);
                [&self.routes, &self.out.get()[..count]].concat()
            }
        })
    }

    /// How many numbers a call that gives this writes at the start of the slice.
    fn written(&mut self, call: &Call, refusal: Refusal) -> usize {
        match call {
            Call::Walk { .. } if refusal.number == 0 => self.value.get()[0].into(),
            Call::Zones { .. } if refusal.number == 0 => {
                let [_, n, ..] = self.memory.parts().numbers;
                (*n).into()
            }
            Call::Routes { .. } if refusal.number == 0 => {
                self.routes[..3].iter().map(|&count| usize::from(count)).sum()
            }
            _ => 0,
        }
    }

    /// Nothing changed outside what is lent, nothing that is lent for reading, and by a refusal nothing at all, but the
    /// count of a list and by the ears accepted; the rest of a slice is left, and a report by all calls but its own. `before`
    /// has session and report as they were.
    pub fn check(
        &mut self,
        call: &Call,
        filler: &[u16],
        (before, report): (&Session, &Report),
        refusal: Refusal,
    ) -> Result<(), Finding> {
        let lent = [&self.lent, &self.out, &self.value];
        let others = self.links.is_guarded() && self.accepted.is_guarded();
        if !self.memory.is_guarded() || !lent.iter().all(|lent| lent.is_guarded()) || !others {
            return Finding::of(Kind::Outside, "memory that was not lent has changed");
        }
        let links = call.links().iter().map(|link| Record::of(link, self.unused));
        if self.lent.get() != call.lent() || !self.links.get().iter().copied().eq(links) {
            return Finding::of(Kind::Changed, "the numbers lent for reading have changed");
        }
        let written = self.written(call, refusal);
        if self.out.get().get(written..) != filler[..call.room()].get(written..) {
            return Finding::of(Kind::Changed, "the rest of the slice lent for writing has changed");
        }
        let accepted = self.accepted(call, refusal);
        if accepted.is_none() && self.accepted.get()[0] != UNWRITTEN {
            return Finding::of(Kind::Changed, "a count of ears accepted was written by a call that has none");
        }
        let nothing = refusal.number != 0 && accepted.unwrap_or(0) == 0;
        if nothing && (!self.memory.holds(before) || self.value.get()[0] != filler[0]) {
            return Finding::of(Kind::Changed, "a refusal has changed the session or an output");
        }
        if let (Call::Routes { .. }, true, true) = (call, refusal.number != 0, self.routes != [0; 8]) {
            return Finding::of(Kind::Changed, "a refusal of routes gives numbers");
        }
        if (refusal.number != 0 || !call.has_report()) && !self.memory.holds_report(report) {
            return Finding::of(Kind::Changed, "a refusal, or a call that is lent no report, has changed the report");
        }
        Ok(())
    }

    /// Does what the fault says; `copy` is true of one side.
    pub fn spoil(&mut self, fault: Fault, copy: bool, call: &Call, refusal: Refusal) {
        let granted = refusal.number == 0;
        let written = self.written(call, refusal);
        match (fault, call) {
            (Fault::Session, _) if !granted => self.memory.parts().tree3[1023] ^= 1,
            (Fault::Behind, _) => *self.memory.behind() ^= 1,
            (Fault::Lent, Call::Ear(ear)) if !ear.is_empty() => self.lent.lend()[0] ^= 1,
            (Fault::LentLink, Call::Load(site)) if !site.links.is_empty() => self.links.lend()[0].unused ^= 1,
            (Fault::Duct, Call::Load(_)) if granted => self.memory.parts().ducts[0] ^= 1,
            (Fault::OtherDuct, Call::Ear(_)) if granted => self.memory.parts().ducts[4095] ^= 1,
            (Fault::Report, Call::ReportAdd) if granted => self.memory.both().1.two[1] += 1,
            (Fault::RefusedReport, Call::ReportAdd) if !granted => *self.memory.both().1.sessions ^= 1,
            (Fault::Added, Call::ReportAdd) if granted => self.memory.parts().tree3[0] ^= 1,
            (Fault::Rest, Call::Walk { room, .. }) | (Fault::RestOfZones, Call::Zones { room, .. })
                if granted && *room > written =>
            {
                self.out.lend()[written] ^= 1;
            }
            (Fault::Zones, Call::Zones { .. }) if granted => {
                let exchanged = |zone: &mut u16| *zone = [0, 2, 1, 3][*zone as usize];
                self.out.lend()[..written].iter_mut().for_each(exchanged);
            }
            (Fault::Unwritten, Call::Zones { .. }) if granted => self.out.lend()[0] = self.value.get()[0],
            (Fault::Third, Call::BringOver) if granted => self.memory.parts().tree3[0] ^= 1,
            (Fault::OtherTree, Call::BringOver) if granted => self.memory.parts().tree2[0] ^= 1,
            (Fault::Accepted, Call::Ears(_)) if !granted => self.accepted.lend()[0] += 1,
            (Fault::Order, Call::Ears(_)) if self.accepted.get()[0] > 0 => self.memory.parts().order[1023] ^= 1,
            (Fault::End, Call::Routes { from, .. }) if granted && self.routes[3] > 0 => {
                self.routes[4..6].copy_from_slice(&[1, *from]);
            }
            (Fault::Written, Call::Routes { .. }) if granted && written == 0 => self.out.lend()[0] ^= 1,
            (Fault::Turned, Call::Routes { .. }) if granted => {
                let count = self.routes[0].into();
                self.out.lend()[..count].reverse();
            }
            (Fault::Exchanged, Call::Routes { .. }) => self.routes.swap(0, 1),
            (Fault::RestOfRoutes, Call::Routes { room, .. }) if granted && written > 0 && *room > written => {
                self.out.lend()[written] ^= 1;
            }
            (Fault::RefusedRoutes, Call::Routes { .. }) if !granted => self.routes[2] = 2,
            (Fault::Copy, Call::Ear(_)) if granted && copy => self.memory.parts().tree1[1023] ^= 1,
            _ => {}
        }
    }
}
