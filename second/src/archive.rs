//! The static archive of the first program as its header for C declares it: the memory of a session and of a report, and
//! the twelve functions. `Session::parts` and `Report::parts` lend what the header's wrappers lend; the arrays of other
//! `Parts` may have any length.

use std::ptr::NonNull;

use crate::ducts::{self, DUCTS};
use crate::network::{Link, Site, MAX_LINKS, MAX_SWITCHES};

/// The memory of a session: the header's struct.
#[repr(C)]
#[derive(Clone, PartialEq, Eq)]
pub struct Session {
    pub stage: u16,
    pub n: u16,
    pub m: u16,
    pub root: u16,
    pub first: u16,
    pub last: u16,
    pub longs: u16,
    pub born: u16,
    pub links: [u16; 2 * MAX_LINKS],
    pub ducts: [u8; MAX_LINKS],
    pub used: [u8; MAX_LINKS],
    pub births: [u16; MAX_SWITCHES],
    pub order: [u16; MAX_SWITCHES],
    pub tree1: [u16; MAX_SWITCHES],
    pub tree2: [u16; MAX_SWITCHES],
    pub tree3: [u16; MAX_SWITCHES],
}

/// The struct as 16-bit numbers. Its fields fill it: no byte of it lies between two of them.
pub const NUMBERS: usize = 17416;
const _: () = assert!(std::mem::size_of::<Session>() == 2 * NUMBERS && std::mem::align_of::<Session>() == 2);
const _: () = assert!(8 + 3 * MAX_LINKS + 5 * MAX_SWITCHES == NUMBERS);

/// The memory of a report: the header's struct, with the bytes that it leaves behind its count.
#[repr(C)]
#[derive(Clone, Debug, PartialEq, Eq)]
pub struct Report {
    pub sessions: u16,
    pub unused: u16,
    pub two: [u32; DUCTS],
    pub three: [u32; DUCTS],
}

/// The struct as 32-bit numbers.
pub const REPORT_NUMBERS: usize = 513;
const _: () = assert!(std::mem::size_of::<Report>() == 4 * REPORT_NUMBERS && std::mem::align_of::<Report>() == 4);

/// A link record as it is lent: the header's struct, with the byte that it leaves behind the duct.
#[repr(C)]
#[derive(Clone, Copy, Debug, PartialEq, Eq)]
pub struct Record {
    pub a: u16,
    pub b: u16,
    pub duct: u8,
    pub unused: u8,
}

const _: () = assert!(std::mem::size_of::<Record>() == 6 && std::mem::offset_of!(Record, duct) == 4);

impl Record {
    pub fn of(link: &Link, unused: u8) -> Record {
        let Link { a, b, duct } = *link;
        Record { a, b, duct, unused }
    }
}

/// Links as they are lent; the byte that each leaves holds a number of its own.
pub fn records(links: &[Link]) -> Vec<Record> {
    links.iter().enumerate().map(|(at, link)| Record::of(link, at as u8)).collect()
}

/// What a call gives: number 0 where it succeeded.
#[repr(C)]
#[derive(Clone, Copy, Debug, PartialEq, Eq)]
pub struct Refusal {
    pub number: u8,
    pub place: u16,
}

/// What there is between two switches: the header's struct. Its numbers are the counts of three walks, how many things
/// part the two, and kind and number of each.
#[repr(C)]
#[derive(Clone, Copy, Debug, PartialEq, Eq)]
pub struct Between {
    pub number: u8,
    pub place: u16,
    pub numbers: [u16; 8],
}

const _: () = assert!(std::mem::size_of::<Between>() == 20 && std::mem::offset_of!(Between, numbers) == 4);

/// The refusal of an array that has not the length of the struct's, at place 0.
pub const LENGTHS: Refusal = Refusal { number: 255, place: 0 };

/// The stages of a session; any other number reads as empty.
pub const OPEN: u16 = 1;
pub const CLOSED: u16 = 2;

type In<T> = *const T;
type Out<T> = *mut T;

// The prototypes, laid out as in the header.
#[rustfmt::skip]
extern "C" {
    fn threeways_clear_in(
        stage: Out<u16>, n: Out<u16>, m: Out<u16>, root: Out<u16>,
        first: Out<u16>, last: Out<u16>, longs: Out<u16>, born: Out<u16>,
        links: Out<u16>, links_count: usize,
        ducts: Out<u8>, ducts_count: usize,
        used: Out<u8>, used_count: usize,
        births: Out<u16>, births_count: usize,
        order: Out<u16>, order_count: usize,
        tree1: Out<u16>, tree1_count: usize,
        tree2: Out<u16>, tree2_count: usize,
        tree3: Out<u16>, tree3_count: usize,
    ) -> Refusal;

    fn threeways_load_in(
        new_links: In<Record>, new_links_count: usize,
        stage: Out<u16>, n: Out<u16>, m: Out<u16>, root: Out<u16>,
        first: Out<u16>, last: Out<u16>, longs: Out<u16>, born: Out<u16>,
        links: Out<u16>, links_count: usize,
        ducts: Out<u8>, ducts_count: usize,
        used: Out<u8>, used_count: usize,
        births: Out<u16>, births_count: usize,
        order: Out<u16>, order_count: usize,
        tree1: Out<u16>, tree1_count: usize,
        tree2: Out<u16>, tree2_count: usize,
        tree3: Out<u16>, tree3_count: usize,
        new_n: u16, new_root: u16, new_first: u16, new_last: u16,
    ) -> Refusal;

    fn threeways_ear_in(
        stage: u16, n: u16, m: u16, root: u16,
        first: u16, last: u16, longs: Out<u16>, born: Out<u16>,
        links: In<u16>, links_count: usize,
        used: Out<u8>, used_count: usize,
        births: Out<u16>, births_count: usize,
        order: Out<u16>, order_count: usize,
        tree1: Out<u16>, tree1_count: usize,
        tree2: Out<u16>, tree2_count: usize,
        ear: In<u16>, ear_count: usize, count: Out<u16>,
    ) -> Refusal;

    fn threeways_ears_in(
        stage: u16, n: u16, m: u16, root: u16,
        first: u16, last: u16, longs: Out<u16>, born: Out<u16>,
        links: In<u16>, links_count: usize,
        used: Out<u8>, used_count: usize,
        births: Out<u16>, births_count: usize,
        order: Out<u16>, order_count: usize,
        tree1: Out<u16>, tree1_count: usize,
        tree2: Out<u16>, tree2_count: usize,
        list: In<u16>, list_count: usize, accepted: Out<usize>,
    ) -> Refusal;

    fn threeways_close_in(
        stage: Out<u16>, n: u16, m: u16, root: u16,
        first: u16, last: u16, longs: u16, born: u16,
        links: In<u16>, links_count: usize,
        used: In<u8>, used_count: usize,
        births: In<u16>, births_count: usize,
        tree3: Out<u16>, tree3_count: usize,
    ) -> Refusal;

    fn threeways_bring_over_in(
        stage: u16, n: u16, m: u16, root: u16,
        first: u16, last: u16, longs: u16, born: u16,
        links: In<u16>, links_count: usize,
        births: In<u16>, births_count: usize,
        tree3: Out<u16>, tree3_count: usize,
    ) -> Refusal;

    fn threeways_parent_in(
        stage: u16, n: u16, m: u16, root: u16,
        first: u16, last: u16, longs: u16, born: u16,
        tree1: In<u16>, tree1_count: usize,
        tree2: In<u16>, tree2_count: usize,
        tree3: In<u16>, tree3_count: usize,
        switch_number: u16, tree: u16, out: Out<u16>,
    ) -> Refusal;

    fn threeways_walk_in(
        stage: u16, n: u16, m: u16, root: u16,
        first: u16, last: u16, longs: u16, born: u16,
        tree1: In<u16>, tree1_count: usize,
        tree2: In<u16>, tree2_count: usize,
        tree3: In<u16>, tree3_count: usize,
        switch_number: u16, tree: u16, out: Out<u16>, out_count: usize, count: Out<u16>,
    ) -> Refusal;

    fn threeways_zones_in(
        stage: u16, n: u16, m: u16, root: u16,
        first: u16, last: u16, longs: u16, born: u16,
        births: In<u16>, births_count: usize,
        order: In<u16>, order_count: usize,
        size1: u16, size2: u16, size3: u16, out: Out<u16>, out_count: usize,
    ) -> Refusal;

    fn threeways_routes_in(
        stage: u16, n: u16, m: u16, root: u16,
        first: u16, last: u16, longs: u16, born: u16,
        links: In<u16>, links_count: usize,
        from: u16, to: u16, out: Out<u16>, out_count: usize,
    ) -> Between;

    fn threeways_report_begin_in(
        sessions: Out<u16>,
        two: Out<u32>, two_count: usize,
        three: Out<u32>, three_count: usize,
    ) -> Refusal;

    fn threeways_report_add_in(
        sessions: Out<u16>,
        two: Out<u32>, two_count: usize,
        three: Out<u32>, three_count: usize,
        stage: u16, n: u16, m: u16, root: u16,
        first: u16, last: u16, longs: u16, born: u16,
        links: In<u16>, links_count: usize,
        ducts: In<u8>, ducts_count: usize,
        tree1: In<u16>, tree1_count: usize,
        tree2: In<u16>, tree2_count: usize,
        tree3: In<u16>, tree3_count: usize,
    ) -> Refusal;
}

/// The parts of a session: its numbers as the struct has them, and its arrays.
pub struct Parts<'a> {
    pub numbers: [&'a mut u16; 8],
    pub links: &'a mut [u16],
    pub ducts: &'a mut [u8],
    pub used: &'a mut [u8],
    pub births: &'a mut [u16],
    pub order: &'a mut [u16],
    pub tree1: &'a mut [u16],
    pub tree2: &'a mut [u16],
    pub tree3: &'a mut [u16],
}

/// The parts of a report.
pub struct ReportParts<'a> {
    pub sessions: &'a mut u16,
    pub two: &'a mut [u32],
    pub three: &'a mut [u32],
}

/// A call of the archive: what is lent ahead of the session, the numbers by pointer (`mut`) or by value, each array named
/// with its count, then the call's own arguments. Every pointer comes from a reference or a slice that is lent for writing, so that it is good and none overlap.
macro_rules! call {
    (@ mut $number:expr) => { &mut **$number as Out<u16> };
    (@ val $number:expr) => { **$number };
    ($function:ident($($ahead:expr),*), $parts:ident, [$($how:tt),*], $arrays:tt $(, $more:expr)*) => {{
        let [a, b, c, d, e, f, g, h] = &mut $parts.numbers;
        call!(@@ $function, [$($ahead),*], $parts, [$($how),*], [a, b, c, d, e, f, g, h], $arrays, [$($more),*])
    }};
    (@@ $function:ident, [$($ahead:expr),*], $parts:ident, [$($how:tt),*], [$($number:ident),*], [$($array:ident),*],
        [$($more:expr),*]) => {
        unsafe {
            $function(
                $($ahead,)* $(call!(@ $how $number),)* $(start_mut($parts.$array), $parts.$array.len(),)* $($more),*
            )
        }
    };
}

/// The same with the numbers by value and the arrays for reading.
macro_rules! read {
    ($function:ident($($ahead:expr),*), $parts:ident, [$($array:ident),*] $(, $more:expr)*) => {{
        let [stage, n, m, root, first, last, longs, born] = &$parts.numbers;
        unsafe {
            $function(
                $($ahead,)* **stage, **n, **m, **root, **first, **last, **longs, **born,
                $(start($parts.$array), $parts.$array.len(),)* $($more),*
            )
        }
    }};
}

impl Parts<'_> {
    pub fn clear(&mut self) -> Refusal {
        call!(
            threeways_clear_in(),
            self,
            [mut, mut, mut, mut, mut, mut, mut, mut],
            [links, ducts, used, births, order, tree1, tree2, tree3]
        )
    }

    pub fn load(&mut self, n: u16, links: &[Record], root: u16, first: u16, last: u16) -> Refusal {
        let (lent, count) = (start(links), links.len());
        call!(
            threeways_load_in(lent, count),
            self,
            [mut, mut, mut, mut, mut, mut, mut, mut],
            [links, ducts, used, births, order, tree1, tree2, tree3],
            n,
            root,
            first,
            last
        )
    }

    pub fn ear(&mut self, ear: &[u16], count: &mut u16) -> Refusal {
        let (ear, length) = (start(ear), ear.len());
        call!(
            threeways_ear_in(),
            self,
            [val, val, val, val, val, val, mut, mut],
            [links, used, births, order, tree1, tree2],
            ear,
            length,
            count
        )
    }

    pub fn ears(&mut self, list: &[u16], accepted: &mut usize) -> Refusal {
        let (list, length) = (start(list), list.len());
        call!(
            threeways_ears_in(),
            self,
            [val, val, val, val, val, val, mut, mut],
            [links, used, births, order, tree1, tree2],
            list,
            length,
            accepted
        )
    }

    pub fn close(&mut self) -> Refusal {
        call!(
            threeways_close_in(),
            self,
            [mut, val, val, val, val, val, val, val],
            [links, used, births, tree3]
        )
    }

    pub fn bring_over(&mut self) -> Refusal {
        call!(threeways_bring_over_in(), self, [val, val, val, val, val, val, val, val], [links, births, tree3])
    }

    pub fn parent(&self, switch: u16, tree: u16, entry: &mut u16) -> Refusal {
        read!(threeways_parent_in(), self, [tree1, tree2, tree3], switch, tree, entry)
    }

    pub fn walk(&self, switch: u16, tree: u16, out: &mut [u16], count: &mut u16) -> Refusal {
        let (out, room) = (start_mut(out), out.len());
        read!(threeways_walk_in(), self, [tree1, tree2, tree3], switch, tree, out, room, count)
    }

    pub fn zones(&self, [size1, size2, size3]: [u16; 3], out: &mut [u16]) -> Refusal {
        let (out, room) = (start_mut(out), out.len());
        read!(threeways_zones_in(), self, [births, order], size1, size2, size3, out, room)
    }

    pub fn routes(&self, from: u16, to: u16, out: &mut [u16]) -> Between {
        let (out, room) = (start_mut(out), out.len());
        read!(threeways_routes_in(), self, [links], from, to, out, room)
    }

    pub fn report_add(&self, report: &mut ReportParts) -> Refusal {
        let ReportParts { sessions, two, three } = report;
        let (at_two, at_three) = (start_mut(two), start_mut(three));
        read!(
            threeways_report_add_in(&mut **sessions, at_two, two.len(), at_three, three.len()),
            self,
            [links, ducts, tree1, tree2, tree3]
        )
    }
}

impl ReportParts<'_> {
    pub fn begin(&mut self) -> Refusal {
        let (two, three) = (start_mut(self.two), start_mut(self.three));
        unsafe { threeways_report_begin_in(self.sessions, two, self.two.len(), three, self.three.len()) }
    }
}

/// Where a slice starts; NULL for an empty one that points nowhere, as `&[]` does.
fn start<T>(slice: &[T]) -> *const T {
    if slice.as_ptr() == NonNull::dangling().as_ptr() {
        return std::ptr::null();
    }
    slice.as_ptr()
}

fn start_mut<T>(slice: &mut [T]) -> *mut T {
    if slice.as_ptr() == NonNull::dangling().as_ptr() {
        return std::ptr::null_mut();
    }
    slice.as_mut_ptr()
}

impl Session {
    pub const EMPTY: Session = Session {
        stage: 0,
        n: 0,
        m: 0,
        root: 0,
        first: 0,
        last: 0,
        longs: 0,
        born: 0,
        links: [0; 2 * MAX_LINKS],
        ducts: [0; MAX_LINKS],
        used: [0; MAX_LINKS],
        births: [0; MAX_SWITCHES],
        order: [0; MAX_SWITCHES],
        tree1: [0; MAX_SWITCHES],
        tree2: [0; MAX_SWITCHES],
        tree3: [0; MAX_SWITCHES],
    };

    /// The parts as the header's wrappers lend them.
    pub fn parts(&mut self) -> Parts<'_> {
        Parts {
            numbers: [
                &mut self.stage,
                &mut self.n,
                &mut self.m,
                &mut self.root,
                &mut self.first,
                &mut self.last,
                &mut self.longs,
                &mut self.born,
            ],
            links: &mut self.links,
            ducts: &mut self.ducts,
            used: &mut self.used,
            births: &mut self.births,
            order: &mut self.order,
            tree1: &mut self.tree1,
            tree2: &mut self.tree2,
            tree3: &mut self.tree3,
        }
    }

    /// The site whose network is loaded.
    pub fn site(&self) -> Site {
        let Session { n, m, root, first, last, links, ducts, .. } = self;
        let records = links.chunks_exact(2).zip(ducts).take((*m).into());
        let links = records.map(|(two, duct)| Link { a: two[0], b: two[1], duct: *duct }).collect();
        Site { switches: *n, root: *root, first: *first, last: *last, links }
    }

    /// The session that these numbers are.
    pub fn at(numbers: &[u16]) -> &Session {
        assert_eq!(numbers.len(), NUMBERS);
        // Size and alignment are those of the struct, and any numbers are a session.
        unsafe { &*numbers.as_ptr().cast() }
    }

    pub fn at_mut(numbers: &mut [u16]) -> &mut Session {
        assert_eq!(numbers.len(), NUMBERS);
        unsafe { &mut *numbers.as_mut_ptr().cast() }
    }

    /// All of the struct, as numbers.
    pub fn numbers(&self) -> &[u16; NUMBERS] {
        // Size and alignment are those of the struct, which has no gaps.
        unsafe { &*(self as *const Session).cast() }
    }

    pub fn numbers_mut(&mut self) -> &mut [u16; NUMBERS] {
        unsafe { &mut *(self as *mut Session).cast() }
    }
}

impl Report {
    pub const EMPTY: Report = Report { sessions: 0, unused: 0, two: [0; DUCTS], three: [0; DUCTS] };

    /// The parts as the header's wrappers lend them.
    pub fn parts(&mut self) -> ReportParts<'_> {
        ReportParts { sessions: &mut self.sessions, two: &mut self.two, three: &mut self.three }
    }

    /// The report that the second program takes it for.
    pub fn second(&self) -> ducts::Report {
        let Report { sessions, two, three, .. } = self;
        ducts::Report { sessions: *sessions, two: *two, three: *three }
    }

    /// The report that these numbers are.
    pub fn at(numbers: &[u32]) -> &Report {
        assert_eq!(numbers.len(), REPORT_NUMBERS);
        // Size and alignment are those of the struct, and any numbers are a report.
        unsafe { &*numbers.as_ptr().cast() }
    }

    pub fn at_mut(numbers: &mut [u32]) -> &mut Report {
        assert_eq!(numbers.len(), REPORT_NUMBERS);
        unsafe { &mut *numbers.as_mut_ptr().cast() }
    }

    /// All of the struct, as numbers.
    pub fn numbers(&self) -> &[u32; REPORT_NUMBERS] {
        // Size and alignment are those of the struct, which has no gaps.
        unsafe { &*(self as *const Report).cast() }
    }
}
