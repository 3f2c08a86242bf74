//! The report of document 02, Note 7: cards i and k by hand; on small networks, generated ones and full sites every duct
//! is failed and every walk is looked at; the sums of many sessions; the refusals. Where the archive is built, its report
//! is held to the same.

#[cfg(archive)]
use second_reading::archive;
use second_reading::brute::lost_walks;
use second_reading::ducts::{Report, MOST_SESSIONS};
use second_reading::every::{all_joined, card_k_site, every_closed_list, prism, wheel_site, worked_site};
use second_reading::follow::lines_of;
use second_reading::lines::{read_form, Form};
use second_reading::network::{Site, MAX_LINKS, MAX_SWITCHES};
use second_reading::plan::{Ducts, Plan, Shape};
use second_reading::random::Random;
use second_reading::session::{list_of, Session};
use second_reading::{refuse, Plant};

fn loaded(site: &Site) -> Session {
    let mut session = Session::Empty;
    session.load(site, Plant::Nothing).unwrap();
    session
}

fn closed(site: &Site, ears: &[Vec<u16>]) -> Session {
    let mut session = loaded(site);
    assert_eq!(session.ears(&list_of(ears)).1, None, "{site:?}");
    session.close().unwrap();
    session
}

fn report_of(session: &Session) -> Report {
    let mut report = Report::EMPTY;
    report.add(session, Plant::Nothing).unwrap();
    report
}

/// The site with these ducts for its links.
fn with_ducts(site: Site, ducts: &[u8]) -> Site {
    assert_eq!(site.links.len(), ducts.len());
    let links = site.links.iter().zip(ducts).map(|(link, &duct)| link.in_duct(duct)).collect();
    Site { links, ..site }
}

/// What a duct costs: the switches that lose two walks, and those that lose all three. No other duct costs anything.
fn cost_of(session: &Session, duct: usize) -> (u32, u32) {
    let report = report_of(session);
    for other in (0..256).filter(|&other| other != duct) {
        assert_eq!((report.two[other], report.three[other]), (0, 0), "duct {other}");
    }
    (report.two[duct], report.three[duct])
}

/// The worked network has the links 01 02 03 12 13 23. The walks of 1 are 1 2 0, 1 0 and 1 3 0, those of 2 are 2 0, 2 1 0
/// and 2 3 0, those of 3 are 3 2 0, 3 1 0 and 3 0.
#[test]
fn card_i() {
    let ears = [vec![0, 2, 1], vec![2, 3, 1], vec![0, 3]];
    for (ducts, cost) in [
        // The three links at the root: all three walks of each switch.
        ([7, 7, 7, 0, 0, 0], (0, 3)),
        // Two of them: exactly two of each switch.
        ([7, 7, 0, 0, 0, 0], (3, 0)),
        ([7, 0, 7, 0, 0, 0], (3, 0)),
        ([0, 7, 7, 0, 0, 0], (3, 0)),
        // One of them, or none.
        ([7, 0, 0, 0, 0, 0], (0, 0)),
        ([0, 0, 0, 0, 0, 0], (0, 0)),
        // 01, 03 and 12: all three of 1, two of 2 and of 3.
        ([7, 0, 7, 7, 0, 0], (2, 1)),
        // Those not at the root: two of each switch, as each has a walk of one link.
        ([0, 0, 0, 7, 7, 7], (3, 0)),
        // All links.
        ([7, 7, 7, 7, 7, 7], (0, 3)),
    ] {
        let session = closed(&with_ducts(worked_site(), &ducts), &ears);
        assert_eq!(cost_of(&session, 7), cost, "{ducts:?}");
    }
    // Each in a duct of its own: any two walks differ in all links.
    let session = closed(&with_ducts(worked_site(), &[1, 2, 3, 4, 5, 255]), &ears);
    assert_eq!(cost_of(&session, 255), (0, 0));
}

/// Card k has the links 01 02 12 13 23 34 35 45 04 05. In trees 1, 2 and 3 the walks are of 1: 1 2 0, 1 0, 1 3 5 0, of 2: 2 0,
/// 2 1 0, 2 3 5 0, of 3: 3 2 0, 3 1 0, 3 5 0, of 4: 4 0, 4 3 1 0, 4 5 0, of 5: 5 4 0, 5 3 1 0, 5 0. By the lowest number 3
/// has parent 4 in tree 3.
#[test]
fn card_k() {
    let ears = [vec![0, 2, 1], vec![2, 3, 1], vec![3, 4, 0], vec![3, 5, 4], vec![0, 5]];
    for (ducts, cost) in [
        // 01, 04 and 05: all three of 4 and 5, two of 1, 2 and 3.
        ([9, 0, 0, 0, 0, 0, 0, 0, 9, 9], (3, 2)),
        // 01, 02 and 05: all three of 1, 2 and 3, two of 4 and 5.
        ([9, 9, 0, 0, 0, 0, 0, 0, 0, 9], (2, 3)),
        // All four at the root.
        ([9, 9, 0, 0, 0, 0, 0, 0, 9, 9], (0, 5)),
        // 01 and 05: two of each. 02 and 04: one of each.
        ([9, 0, 0, 0, 0, 0, 0, 0, 0, 9], (5, 0)),
        ([0, 9, 0, 0, 0, 0, 0, 0, 9, 0], (0, 0)),
        // 13, 23 and 35, not at the root: all three of 3, and one of each other.
        ([0, 0, 0, 9, 9, 0, 9, 0, 0, 0], (0, 1)),
    ] {
        let session = closed(&with_ducts(card_k_site(), &ducts), &ears);
        assert_eq!(cost_of(&session, 9), cost, "{ducts:?}");
    }
    // 01, 34 and 04: two of 4 and 5. By the lowest number the third walks of 1, 2 and 3 go over 34, and so two of each.
    let mut session = closed(&with_ducts(card_k_site(), &[9, 0, 0, 0, 0, 9, 0, 0, 9, 0]), &ears);
    assert_eq!(cost_of(&session, 9), (2, 0));
    session.set_back().unwrap();
    assert_eq!(cost_of(&session, 9), (5, 0));
    session.bring_over().unwrap();
    assert_eq!(cost_of(&session, 9), (2, 0));
}

/// The plan of `examples/` with ducts, which `docs/USER.md` tells the report of.
#[test]
fn plan_with_ducts() {
    let plan = std::fs::read(format!("{}/../examples/ducts.plan", env!("CARGO_MANIFEST_DIR"))).unwrap();
    let (mut site, mut ears) = (card_k_site(), Vec::new());
    site.links.clear();
    for form in lines_of(&plan).map(|line| read_form(line).unwrap()) {
        match form {
            Form::Link(link) => site.links.push(link),
            Form::Ear(ear) => ears.push(ear),
            _ => {}
        }
    }
    let report = check(&site, &ears);
    let costs = (1..256).filter(|&duct| (report.two[duct], report.three[duct]) != (0, 0));
    let costs: Vec<(usize, u32, u32)> = costs.map(|duct| (duct, report.two[duct], report.three[duct])).collect();
    assert_eq!(costs, [(7, 0, 1), (8, 3, 0)]);
    assert!(site.links.iter().any(|link| link.duct == 9));
}

/// Fails each duct of the site in turn.
fn failed_one_by_one(site: &Site, session: &Session) -> Report {
    let mut report = Report { sessions: 1, ..Report::EMPTY };
    let walks_of = |s| [1, 2, 3].map(|tree| session.walk(s, tree).unwrap());
    let walks: Vec<[Vec<u16>; 3]> = (0..site.switches).map(walks_of).collect();
    for duct in 1..=255 {
        if site.links.iter().any(|link| link.duct == duct) {
            let at = usize::from(duct);
            (report.two[at], report.three[at]) = lost_walks(site, duct, &walks);
        }
    }
    report
}

/// What the archive reports of the same site and list; in a session that was set back tree 3 has the lowest numbers.
#[cfg(archive)]
fn archive_report(site: &Site, session: &Session, ears: &[Vec<u16>]) -> Report {
    let (mut memory, mut report) = (Box::new(archive::Session::EMPTY), archive::Report::EMPTY);
    let mut parts = memory.parts();
    let loaded = parts.load(site.switches, &archive::records(&site.links), site.root, site.first, site.last);
    let mut accepted = 0;
    let offered = parts.ears(&list_of(ears), &mut accepted);
    let closed = parts.close();
    assert!([loaded, offered, closed].iter().all(|refusal| refusal.number == 0), "{site:?}");
    for s in 0..site.switches {
        parts.tree3[s as usize] = session.parent(s, 3).unwrap();
    }
    assert_eq!(parts.report_add(&mut report.parts()).number, 0);
    report.second()
}

/// The second program's report, and the archive's, are what failing the ducts one by one gives.
fn check(site: &Site, ears: &[Vec<u16>]) -> Report {
    let mut session = closed(site, ears);
    let report = report_of(&session);
    for _ in 0..2 {
        let report = report_of(&session);
        assert_eq!(report, failed_one_by_one(site, &session), "{site:?}, {ears:?}");
        #[cfg(archive)]
        assert_eq!(report, archive_report(site, &session, ears), "{site:?}, {ears:?}");
        session.set_back().unwrap();
    }
    report
}

/// All lists of long ears that close a small network, with ducts of few numbers chosen twenty times.
#[test]
fn small_networks() {
    let mut random = Random::new(9, 0);
    let (mut cases, mut two, mut three) = (0, 0, 0);
    for site in [worked_site(), wheel_site(), card_k_site(), prism(), all_joined(5)] {
        every_closed_list(&site, &mut |list| {
            let ears = [list, &[Vec::new()]].concat();
            for _ in 0..20 {
                let ducts: Vec<u8> = site.links.iter().map(|_| *random.pick(&[0, 0, 1, 2, 255])).collect();
                let report = check(&with_ducts(site.clone(), &ducts), &ears);
                cases += 1;
                two += report.two.iter().sum::<u32>();
                three += report.three.iter().sum::<u32>();
            }
        });
    }
    assert!(cases >= 600 && two > 1000 && three > 100, "{cases} cases, {two} and {three}");
}

#[test]
fn generated_lists() {
    for index in 0..400 {
        let mut random = Random::new(10, index);
        let switches = random.within(4, 40);
        let Plan { site, ears } = Plan::random(&mut random, switches);
        check(&site, &ears);
    }
}

#[test]
fn full_sites() {
    for (index, ducts) in [Ducts::Any, Ducts::AtRoot, Ducts::One, Ducts::ByEar].into_iter().enumerate() {
        let mut random = Random::new(11, index as u64);
        let shape = Shape::random(&mut random, MAX_SWITCHES);
        let shape = Shape { links: MAX_LINKS, first_ear: 5, longest: 8, cubic: false, ducts, ..shape };
        let Plan { site, ears } = Plan::of(&shape, &mut random);
        check(&site, &ears);
    }
}

/// A duct of all links costs every switch but the root all three walks, whatever the network.
#[test]
fn all_links_in_one_duct() {
    for switches in [4, 5, 60, MAX_SWITCHES] {
        let mut random = Random::new(12, switches as u64);
        let shape = Shape { ducts: Ducts::None, ..Shape::random(&mut random, switches) };
        let Plan { site, ears } = Plan::of(&shape, &mut random);
        let site = with_ducts(site.clone(), &vec![254; site.links.len()]);
        assert_eq!(cost_of(&closed(&site, &ears), 254), (0, switches as u32 - 1));
    }
}

/// Sessions one after another, up to 65,535 of them, in exact numbers.
#[test]
fn sums_and_refusals() {
    let ears = [vec![0, 2, 1], vec![2, 3, 1], vec![0, 3]];
    let site = with_ducts(worked_site(), &[7, 0, 7, 7, 0, 0]);
    let (session, open) = (closed(&site, &ears), loaded(&site));
    let mut report = Report::EMPTY;
    for (other, number) in [(&Session::Empty, 19), (&open, 21)] {
        assert_eq!(report.add(other, Plant::Nothing), refuse(number, 0));
        assert_eq!(report, Report::EMPTY);
    }
    let k = [vec![0, 2, 1], vec![2, 3, 1], vec![3, 4, 0], vec![3, 5, 4], vec![0, 5]];
    let card_k = closed(&with_ducts(card_k_site(), &[7, 0, 0, 0, 0, 0, 8, 0, 7, 7]), &k);
    report.add(&card_k, Plant::Nothing).unwrap();
    for _ in 1..MOST_SESSIONS {
        report.add(&session, Plant::Nothing).unwrap();
    }
    assert_eq!(report.sessions, 65_535);
    assert_eq!((report.two[7], report.three[7]), (2 * 65_534 + 3, 65_534 + 2));
    assert_eq!(report.two.iter().chain(&report.three).filter(|sum| **sum != 0).count(), 2);
    let full = report.clone();
    for (other, number) in [(&Session::Empty, 19), (&open, 21), (&session, 25)] {
        assert_eq!(report.add(other, Plant::Nothing), refuse(number, 0));
        assert_eq!(report, full);
    }
}
