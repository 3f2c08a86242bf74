//! A call of a session with its arguments, and what the second program answers to it.
//! An answer has the call's values in document 01's order, or its refusal, and of a list the ears accepted.

use std::fmt::{Display, Formatter, Result as Written};

use crate::archive::{self, Parts, Record, ReportParts};
use crate::ducts::Report;
use crate::lines::link_line;
use crate::network::{Link, Site};
use crate::session::{ears_of, Session};
use crate::{Plant, Refusal};

#[derive(Clone, Debug)]
pub enum Call {
    Clear,
    Load(Site),
    Ear(Vec<u16>),
    /// A list of ears, each preceded by its count of numbers.
    Ears(Vec<u16>),
    Close,
    BringOver,
    Parent {
        switch: u16,
        tree: u16,
    },
    Walk {
        switch: u16,
        tree: u16,
        room: usize,
    },
    Zones {
        sizes: [u16; 3],
        room: usize,
    },
    Routes {
        from: u16,
        to: u16,
        room: usize,
    },
    /// A report is begun, and the session is added to it.
    ReportBegin,
    ReportAdd,
}

/// The values that a call gives (of a walk the count, then the switches; of zones those of all switches; of routes the
/// eight numbers of the answer, then the switches of the walks), or its refusal.
pub type Values = Result<Vec<u16>, Refusal>;

/// Where a call writes: the slice, and places for a number, for the ears accepted and for the numbers of routes.
pub struct Outputs<'a> {
    pub out: &'a mut [u16],
    pub value: &'a mut u16,
    pub accepted: &'a mut usize,
    pub routes: &'a mut [u16; 8],
}

/// What a call answers.
#[derive(Clone, Debug, PartialEq, Eq)]
pub struct Answer {
    /// How many ears of a list were accepted; 0 of any other call.
    pub accepted: usize,
    pub values: Values,
}

impl Answer {
    /// Whether the session may have changed: the call was granted, or an ear of its list was.
    pub fn may_change(&self) -> bool {
        self.values.is_ok() || self.accepted > 0
    }
}

impl Call {
    pub fn is_empty_ear(&self) -> bool {
        matches!(self, Call::Ear(ear) if ear.is_empty())
    }

    /// The ear that was refused, of a list the one behind those accepted; none where a count is past the end.
    pub fn refused_ear(&self, answer: &Answer) -> Option<&[u16]> {
        match self {
            Call::Ear(ear) if answer.values.is_err() => Some(ear),
            Call::Ears(list) if answer.values.is_err() => ears_of(list).nth(answer.accepted)?,
            _ => None,
        }
    }

    /// The numbers that the call lends for reading.
    pub fn lent(&self) -> &[u16] {
        match self {
            Call::Ear(numbers) | Call::Ears(numbers) => numbers,
            _ => &[],
        }
    }

    /// The links that it lends for reading.
    pub fn links(&self) -> &[Link] {
        match self {
            Call::Load(site) => &site.links,
            _ => &[],
        }
    }

    /// How many numbers it lends for writing.
    pub fn room(&self) -> usize {
        match self {
            Call::Walk { room, .. } | Call::Zones { room, .. } | Call::Routes { room, .. } => *room,
            _ => 0,
        }
    }

    /// Whether the call is lent a report.
    pub fn has_report(&self) -> bool {
        matches!(self, Call::ReportBegin | Call::ReportAdd)
    }

    /// Makes the call on the second program's session and report.
    pub fn second(&self, session: &mut Session, report: &mut Report, plant: Plant) -> Answer {
        let mut accepted = 0;
        let values = match self {
            Call::Clear => {
                session.clear();
                Ok(Vec::new())
            }
            Call::Load(site) => session.load(site, plant).map(|(n, m)| vec![n as u16, m as u16]),
            Call::Ear(ear) => session.ear(ear).map(|new| vec![new as u16]),
            Call::Ears(list) => {
                let (count, refusal) = session.ears(list);
                accepted = count;
                refusal.map_or(Ok(Vec::new()), Err)
            }
            Call::Close => session.close().map(|()| Vec::new()),
            Call::BringOver => session.bring_over().map(|()| Vec::new()),
            Call::Parent { switch, tree } => session.parent(*switch, *tree).map(|entry| vec![entry]),
            Call::Walk { switch, tree, room } => {
                let walk = session.walk_within(*switch, *tree, *room);
                walk.map(|walk| [&[walk.len() as u16], &walk[..]].concat())
            }
            Call::Zones { sizes, room } => session.zones_within(*sizes, *room),
            Call::Routes { from, to, room } => session.routes_within(*from, *to, *room),
            Call::ReportBegin => {
                *report = Report::EMPTY;
                Ok(Vec::new())
            }
            Call::ReportAdd => report.add(session, plant).map(|()| Vec::new()),
        };
        Answer { accepted, values }
    }

    /// Makes the call on a session and a report of the archive. Its numbers are lent at `lent`, its links at `links`.
    pub fn archive(
        &self,
        (mut parts, mut report): (Parts, ReportParts),
        lent: &[u16],
        links: &[Record],
        Outputs { out, value, accepted, routes }: Outputs,
    ) -> archive::Refusal {
        match self {
            Call::Clear => parts.clear(),
            Call::Load(Site { switches, root, first, last, .. }) => parts.load(*switches, links, *root, *first, *last),
            Call::Ear(_) => parts.ear(lent, value),
            Call::Ears(_) => parts.ears(lent, accepted),
            Call::Close => parts.close(),
            Call::BringOver => parts.bring_over(),
            Call::Parent { switch, tree } => parts.parent(*switch, *tree, value),
            Call::Walk { switch, tree, .. } => parts.walk(*switch, *tree, out, value),
            Call::Zones { sizes, .. } => parts.zones(*sizes, out),
            Call::Routes { from, to, .. } => {
                let archive::Between { number, place, numbers } = parts.routes(*from, *to, out);
                *routes = numbers;
                archive::Refusal { number, place }
            }
            Call::ReportBegin => report.begin(),
            Call::ReportAdd => parts.report_add(&mut report),
        }
    }
}

/// Numbers with a space before each.
struct Numbers<'a>(&'a [u16]);

impl Display for Numbers<'_> {
    fn fmt(&self, out: &mut Formatter) -> Written {
        self.0.iter().try_for_each(|number| write!(out, " {number}"))
    }
}

impl Display for Call {
    fn fmt(&self, out: &mut Formatter) -> Written {
        match self {
            Call::Clear => write!(out, "clear"),
            Call::Load(Site { switches, root, first, last, links }) => {
                write!(out, "load {switches} root {root} first {first} last {last}")?;
                links.iter().try_for_each(|link| write!(out, " {}", link_line(link)))
            }
            Call::Ear(ear) => write!(out, "ear{}", Numbers(ear)),
            Call::Ears(list) => write!(out, "ears{}", Numbers(list)),
            Call::Close => write!(out, "close"),
            Call::BringOver => write!(out, "bring over"),
            Call::Parent { switch, tree } => write!(out, "parent {switch} {tree}"),
            Call::Walk { switch, tree, room } => write!(out, "walk {switch} {tree} into {room}"),
            Call::Zones { sizes, room } => write!(out, "zones{} into {room}", Numbers(sizes)),
            Call::Routes { from, to, room } => write!(out, "routes {from} {to} into {room}"),
            Call::ReportBegin => write!(out, "report begin"),
            Call::ReportAdd => write!(out, "report add"),
        }
    }
}
