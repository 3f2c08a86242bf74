//! Scripts for the comparison: script INDEX of a seed.

use crate::damage::{
    damage_site, damaged_ear, form_line, last_by_root, long_ear_line, malformed_line, tried_ear, tried_in_vain,
    unread_duct_line,
};
use crate::lines::{ear_line, link_line, LINES};
use crate::network::{Link, Site, MAX_LINKS};
use crate::plan::{any_duct, Ducts, Plan, Shape, ShortEars};
use crate::random::Random;
use crate::session::Session;
use crate::Plant;

/// The bytes of script `index` of a seed.
pub fn script(seed: u64, index: u64) -> Vec<u8> {
    let mut random = Random::new(seed, index);
    let random = &mut random;
    let mut out = Script { zeros: random.chance(20), ..Script::default() };
    match random.below(1000) {
        0..230 => several(random, &mut out, 3, |random, out| {
            let switches = random.within(4, 8);
            planned(random, out, switches, 35);
        }),
        230..260 => several(random, &mut out, 3, wandering),
        260..410 => several(random, &mut out, 3, tried_list),
        410..510 => several(random, &mut out, 3, mixed_list),
        510..610 => several(random, &mut out, 6, damaged_site),
        610..670 => several(random, &mut out, 2, any_calls),
        670..770 => unread(random, &mut out),
        770..830 => unread_duct(random, &mut out),
        830..930 => several(random, &mut out, 2, |random, out| {
            let switches = random.within(9, 100);
            planned(random, out, switches, 15);
        }),
        930..970 => {
            let switches = *random.pick(&[1024, 1023, 1000, 512, 300, 700]);
            planned(random, &mut out, switches, 3);
        }
        970..985 => too_many_links(random, &mut out),
        985..992 => too_many_lines(random, &mut out),
        _ => odd_ends(random, &mut out),
    }
    if random.chance(10) && out.bytes.last() == Some(&b'\n') {
        out.bytes.pop();
    }
    out.bytes
}

/// Lines as they are written, and the session that they would give.
#[derive(Default)]
struct Script {
    bytes: Vec<u8>,
    lines: usize,
    session: Session,
    /// Whether links in no duct are written with duct 0.
    zeros: bool,
}

impl Script {
    fn line(&mut self, line: &[u8]) {
        self.bytes.extend(line);
        self.bytes.push(b'\n');
        self.lines += 1;
    }

    fn text(&mut self, line: &str) {
        self.line(line.as_bytes());
    }

    fn net(&mut self, site: &Site) {
        let Site { switches, root, first, last, .. } = site;
        self.text(&format!("(net {switches} (root {root}) (first {first}) (last {last}))"));
    }

    fn links(&mut self, links: &[Link]) {
        for link in links {
            match link {
                Link { a, b, duct: 0 } if self.zeros => self.text(&format!("(link {a} {b} (duct 0))")),
                link => self.text(&link_line(link)),
            }
        }
    }

    fn open(&mut self, site: &Site) {
        self.text("(open)");
        let _ = self.session.load(site, Plant::Nothing);
    }

    fn ear(&mut self, ear: &[u16]) {
        self.text(&ear_line(ear));
        let _ = self.session.ear(ear);
    }

    /// Empty ears in a row, at least one in so many of a hundred cases.
    fn empty_ears(&mut self, random: &mut Random, percent: usize) {
        while random.chance(percent) {
            self.ear(&[]);
        }
    }

    fn close(&mut self) {
        self.text("(close)");
        let _ = self.session.close();
    }

    fn clear(&mut self) {
        self.text("(clear)");
        self.session.clear();
    }

    fn walk(&mut self, switch: usize, tree: usize) {
        self.text(&format!("(walk {switch} {tree})"));
    }
}

/// One to `most` parts with clears between; rarely a clear is forgotten, so
/// that the next part meets a session that is not empty.
fn several(random: &mut Random, out: &mut Script, most: usize, part: fn(&mut Random, &mut Script)) {
    for i in 0..random.within(1, most) {
        if i > 0 {
            if random.chance(90) {
                out.clear();
            }
            while random.chance(20) {
                out.clear();
            }
        }
        part(random, out);
    }
}

/// The lines of a site, in one of the sequences that are allowed.
fn site_lines(random: &mut Random, out: &mut Script, site: &Site) {
    match random.below(5) {
        0 => {
            out.links(&site.links);
            out.net(site);
        }
        1 => {
            let (before, after) = site.links.split_at(random.below(site.links.len() + 1));
            out.links(before);
            out.net(site);
            out.links(after);
        }
        2 => {
            // A `net` line replaces an earlier one.
            let mut other = site.clone();
            damage_site(random, &mut other);
            out.net(&other);
            out.links(&site.links);
            out.net(site);
        }
        _ => {
            out.net(site);
            out.links(&site.links);
        }
    }
}

/// A plan offered whole, with damaged ears and other calls in between.
fn planned(random: &mut Random, out: &mut Script, switches: usize, noise: usize) {
    let plan = Plan::random(random, switches);
    offered(random, out, &plan, noise);
}

/// Switches numbered by their birth, most in ears of their own: by the lowest number, third walks go through many.
fn wandering(random: &mut Random, out: &mut Script) {
    let switches = random.within(6, 60);
    let longest = random.within(1, 2);
    let shape = Shape { first_ear: 3, longest, tidy: true, ..Shape::random(random, switches) };
    let plan = Plan::of(&shape, random);
    offered(random, out, &plan, 5);
}

fn offered(random: &mut Random, out: &mut Script, plan: &Plan, noise: usize) {
    site_lines(random, out, &plan.site);
    out.empty_ears(random, 5);
    out.open(&plan.site);
    out.empty_ears(random, 5);
    let drop = if random.chance(10) { random.below(plan.ears.len()) } else { usize::MAX };
    for (at, ear) in plan.ears.iter().enumerate() {
        let noise_here = match ear.len() {
            0..=4 => noise,
            5..=8 => noise.max(60),
            _ => 90,
        };
        while random.chance(noise_here) {
            noisy_call(random, out, plan, at);
        }
        if at == drop {
            continue;
        }
        out.ear(ear);
    }
    while random.chance(noise) {
        noisy_call(random, out, plan, plan.ears.len());
    }
    out.empty_ears(random, 20);
    out.close();
    out.empty_ears(random, 5);
    walks(random, out, plan.site.switches.into());
    if random.chance(30) {
        after_close(random, out, plan);
    }
}

/// One call that is most likely refused.
fn noisy_call(random: &mut Random, out: &mut Script, plan: &Plan, at: usize) {
    let n = plan.site.switches as usize;
    let Session::Open(judge) = &out.session else {
        return any_call(random, out);
    };
    match random.below(20) {
        0 | 1 => out.close(),
        2 => out.open(&plan.site),
        3 => out.walk(random.below(n + 2), random.below(5)),
        4 => {
            let link = Link { a: random.below(n) as u16, b: random.below(n) as u16, duct: random.below(256) as u8 };
            out.links(&[link]);
        }
        5 => {
            let other = Plan::random(random, 4);
            out.net(&other.site);
        }
        6 => {
            let ear = last_by_root(random, judge);
            out.ear(&ear);
        }
        7 if random.chance(20) => {
            let ear = tried_ear(random, judge);
            out.ear(&ear);
        }
        8..=10 => {
            let ear = tried_in_vain(random, judge);
            out.ear(&ear);
        }
        _ => {
            let ear = damaged_ear(random, judge, &plan.ears, at);
            out.ear(&ear);
        }
    }
}

/// All walks of a small site, some or all of a large one, and bad ones.
fn walks(random: &mut Random, out: &mut Script, switches: usize) {
    let mut asked: Vec<usize> = (0..switches).collect();
    if random.chance(30) {
        random.shuffle(&mut asked);
    }
    if switches > 100 && random.chance(70) {
        random.shuffle(&mut asked);
        asked.truncate(60);
    }
    for s in asked {
        for tree in 1..=3 {
            out.walk(s, tree);
        }
        if random.chance(5) {
            let tree = *random.pick(&[0, 4, 5, 256, 257, 258, 259, 513, 65535]);
            out.walk(s, tree);
        }
    }
    while random.chance(30) {
        let s = *random.pick(&[switches, switches + 1, 1024, 65535, switches - 1, 0]);
        let tree = *random.pick(&[0, 1, 2, 3, 4, 257, 65535]);
        out.walk(s, tree);
    }
}

fn after_close(random: &mut Random, out: &mut Script, plan: &Plan) {
    for _ in 0..random.within(1, 5) {
        match random.below(5) {
            0 => out.close(),
            1 => out.open(&plan.site),
            2 => out.ear(&[]),
            3 => {
                let ear = random.pick(&plan.ears).clone();
                out.ear(&ear);
            }
            _ => out.walk(random.below(12), random.within(0, 4)),
        }
    }
}

/// A small site on which ears are tried until nothing more fits.
fn tried_list(random: &mut Random, out: &mut Script) {
    let switches = random.within(4, 8);
    let plan = Plan::random(random, switches);
    let mut site = plan.site.clone();
    if random.chance(15) {
        // A switch without a link, or another last: most likely nothing closes.
        match random.below(2) {
            0 => site.switches += 1,
            _ => std::mem::swap(&mut site.first, &mut site.last),
        }
    }
    site_lines(random, out, &site);
    out.open(&site);
    for _ in 0..random.within(3, 30) {
        let Session::Open(judge) = &out.session else {
            break;
        };
        let at = random.below(plan.ears.len());
        let ear = match random.below(10) {
            0 => damaged_ear(random, judge, &plan.ears, at),
            1 if judge.is_born(judge.network.root) => last_by_root(random, judge),
            2 => Vec::new(),
            _ => tried_ear(random, judge),
        };
        out.ear(&ear);
        if random.chance(4) {
            out.close();
        }
    }
    out.empty_ears(random, 40);
    if random.chance(60) {
        for (a, b) in left_over(out) {
            out.ear(&[a, b]);
        }
    }
    out.close();
    walks(random, out, site.switches as usize);
}

/// The unused links of an open session.
fn left_over(out: &Script) -> Vec<(u16, u16)> {
    let Session::Open(judge) = &out.session else {
        return Vec::new();
    };
    let mut links = Vec::new();
    for s in 0..judge.network.switches as u16 {
        let near = judge.network.neighbours(s).iter();
        links.extend(
            near.filter(|other| s < other.switch && !judge.is_used(other.link as usize)).map(|other| (s, other.switch)),
        );
    }
    links
}

/// A list that closes, changed as a whole: ears exchanged, cut, joined,
/// turned round, or other switches named first and last.
fn mixed_list(random: &mut Random, out: &mut Script) {
    let switches = random.within(4, 8);
    let mut plan = Plan::random(random, switches);
    for _ in 0..random.within(0, 2) {
        let ears = &mut plan.ears;
        let (one, other) = (random.below(ears.len()), random.below(ears.len()));
        match random.below(8) {
            0 | 1 => ears.swap(one, other),
            2 => {
                let ear = ears.remove(one);
                ears.insert(other.min(ears.len()), ear);
            }
            3 => ears[one].reverse(),
            4 if !ears[one].is_empty() => {
                let cut = random.below(ears[one].len());
                let end = ears[one].split_off(cut + 1);
                if !end.is_empty() {
                    let mut rest = vec![ears[one][cut]];
                    rest.extend(end);
                    ears.insert(other, rest);
                }
            }
            5 => {
                if one != other && ears[one].last().is_some_and(|end| ears[other].first() == Some(end)) {
                    let rest = ears[other][1..].to_vec();
                    ears[one].extend(rest);
                    ears.remove(other);
                }
            }
            6 => std::mem::swap(&mut plan.site.first, &mut plan.site.last),
            _ => {
                let link = *random.pick(&plan.site.links);
                if link.a == plan.site.root {
                    plan.site.last = link.b;
                }
            }
        }
    }
    site_lines(random, out, &plan.site);
    out.open(&plan.site);
    for ear in &plan.ears {
        out.ear(ear);
    }
    out.close();
    walks(random, out, switches);
}

/// A site with one to three faults; sometimes mended and opened again.
fn damaged_site(random: &mut Random, out: &mut Script) {
    let switches = if random.chance(85) { random.within(4, 12) } else { random.within(13, 300) };
    let plan = Plan::random(random, switches);
    let mut site = plan.site.clone();
    for _ in 0..random.within(1, 3) {
        damage_site(random, &mut site);
    }
    if random.chance(5) {
        out.links(&site.links);
        site = Site { links: site.links, ..Site::default() };
    } else {
        site_lines(random, out, &site);
    }
    out.open(&site);
    match random.below(4) {
        0 => {
            // Links can be added and the `net` line replaced after a refusal.
            site.links.extend(&plan.site.links);
            out.links(&plan.site.links);
            site = Site { links: site.links, ..plan.site };
            out.net(&site);
            out.open(&site);
        }
        1 => {
            out.ear(&plan.ears[0]);
            out.close();
            out.walk(0, 1);
        }
        2 => {
            out.net(&plan.site);
            site = Site { links: site.links, ..plan.site.clone() };
            out.open(&site);
            for ear in &plan.ears {
                out.ear(ear);
            }
            out.close();
            out.walk(0, 2);
        }
        _ => {}
    }
}

/// Calls in any sequence, with numbers of all sizes.
fn any_calls(random: &mut Random, out: &mut Script) {
    let plan = Plan::random(random, 4);
    for _ in 0..random.within(1, 25) {
        match random.below(10) {
            0 | 1 => site_lines(random, out, &plan.site),
            2 => out.open(&plan.site),
            3 => {
                for ear in &plan.ears {
                    out.ear(ear);
                }
            }
            4 => out.close(),
            5 => out.walk(random.below(5), random.below(5)),
            _ => any_call(random, out),
        }
    }
}

/// One call with any numbers. The session kept beside may then differ from
/// the one that the lines give; it only guides.
fn any_call(random: &mut Random, out: &mut Script) {
    let mut line = form_line(random);
    if line == b"(clear)" && random.chance(70) {
        line = b"(close)".to_vec();
    }
    out.line(&line);
}

/// Good lines, then one that is most likely no form, then more lines.
fn unread(random: &mut Random, out: &mut Script) {
    match random.below(4) {
        0 => planned(random, out, 4, 10),
        1 => any_calls(random, out),
        2 => {
            for _ in 0..random.below(4) {
                let line = form_line(random);
                out.line(&line);
            }
        }
        _ => {}
    }
    for _ in 0..random.within(1, 2) {
        let line = malformed_line(random);
        out.line(&line);
    }
    for _ in 0..random.below(4) {
        let line = form_line(random);
        out.line(&line);
    }
}

/// Good lines, then a link whose duct makes the line unread, most often among the links of a plan, and more lines.
fn unread_duct(random: &mut Random, out: &mut Script) {
    let switches = random.within(4, 8);
    let plan = Plan::random(random, switches);
    let at = random.below(plan.site.links.len());
    out.net(&plan.site);
    out.links(&plan.site.links[..at]);
    if random.chance(20) {
        out.links(&plan.site.links[at..]);
        out.open(&plan.site);
        out.ear(&plan.ears[0]);
    }
    let line = unread_duct_line(random, &plan.site.links[at]);
    out.text(&line);
    out.links(&plan.site.links[at..]);
    out.open(&plan.site);
}

/// As many links as are collected, and one more or not.
fn too_many_links(random: &mut Random, out: &mut Script) {
    if random.chance(30) {
        // A clear resets the count.
        let some = vec![Link { a: 1, b: 2, duct: any_duct(random) }; random.within(1, 4096)];
        out.links(&some);
        out.clear();
    }
    let mut shape = Shape::random(random, 1024);
    shape.links = MAX_LINKS;
    shape.cubic = false;
    let plan = Plan::of(&shape, random);
    let split = random.below(MAX_LINKS);
    out.net(&plan.site);
    out.links(&plan.site.links[..split]);
    if random.chance(50) {
        // An open, refused or not, does not reset the count.
        let site = Site { links: plan.site.links[..split].to_vec(), ..plan.site };
        out.open(&site);
    }
    out.links(&plan.site.links[split..]);
    out.open(&plan.site);
    out.ear(&plan.ears[0]);
    if random.chance(70) {
        let line = *random.pick(&["(link 0 1)", "(link 0 1 (duct 7))", "(link 65536 1)", "(link 0 1 (duct 256))"]);
        out.text(line);
    }
    for ear in &plan.ears[1..] {
        out.ear(ear);
    }
    out.close();
}

/// Lines up to the last one that is read, and past it.
fn too_many_lines(random: &mut Random, out: &mut Script) {
    let shape = Shape {
        switches: 6,
        links: 12,
        first_ear: 3,
        longest: 2,
        hungry: 90,
        hubs: 0,
        cubic: false,
        short_ears: ShortEars::AtTheEnd,
        ducts: Ducts::Few,
        tidy: false,
    };
    let plan = Plan::of(&shape, random);
    let planned_at_end = random.chance(50);
    let filler = *random.pick(&["(clear)", "(close)", "(net 4 (root 0) (first 1) (last 3))", "(ear)", "(walk 1 1)"]);
    let whole = |out: &mut Script| {
        out.net(&plan.site);
        out.links(&plan.site.links);
        out.open(&plan.site);
        plan.ears.iter().for_each(|ear| out.ear(ear));
        out.close();
    };
    if !planned_at_end {
        whole(out);
    }
    let stop = if planned_at_end { LINES - random.within(5, 40) } else { LINES - random.below(4) };
    while out.lines < stop {
        out.text(filler);
    }
    if planned_at_end {
        whole(out);
    }
    for _ in 0..random.below(8) {
        let line = *random.pick(&["(bad", "(clear)", "(walk 2 1)", "", "(close)", "long"]);
        let long = long_ear_line(random, 6145);
        out.line(if line == "long" { &long } else { line.as_bytes() });
    }
}

/// Inputs of a line or none.
fn odd_ends(random: &mut Random, out: &mut Script) {
    match random.below(8) {
        0 => {}
        1 => out.line(b""),
        2 => out.bytes.extend(b"(clear)"),
        3 => out.bytes.extend(b"(clear)\n\n"),
        4 => {
            let length = *random.pick(&[6143, 6144, 6145]);
            out.bytes.extend(long_ear_line(random, length));
        }
        5 => {
            // The most numbers that an ear line holds.
            let ear = vec![random.below(10) as u16; 3069];
            out.ear(&ear);
        }
        6 => out.bytes.extend(vec![b'x'; random.within(6100, 20000)]),
        _ => {
            let line = form_line(random);
            out.bytes.extend(line);
        }
    }
    if random.chance(30) {
        out.bytes.push(b'\n');
    }
}
