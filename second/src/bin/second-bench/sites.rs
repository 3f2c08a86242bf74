//! The sites that are measured, and the script of a site, cut after each stage.

use std::collections::HashSet;

use second_reading::lines::link_line;
use second_reading::network::Link;
use second_reading::plan::{mix, Ducts, Plan, Shape, ShortEars};
use second_reading::random::Random;
use second_reading::session::{list_of, Session};
use second_reading::Plant;

/// A plan with its name.
pub struct Case {
    pub name: &'static str,
    pub plan: Plan,
}

impl Case {
    fn of(name: &'static str, shape: Shape) -> Case {
        let plan = Plan::of(&shape, &mut Random::new(1, shape.links as u64));
        Case { name, plan }
    }

    /// Switches, links and ears.
    pub fn sizes(&self) -> [usize; 3] {
        [self.plan.site.switches as usize, self.plan.site.links.len(), self.plan.ears.len()]
    }

    /// The longest third walk and the average one, as they are and as they were before document 02, Note 6; none where
    /// the list does not close.
    pub fn third_walks(&self) -> Option<[(usize, f64); 2]> {
        let mut session = Session::Empty;
        session.load(&self.plan.site, Plant::Nothing).ok()?;
        session.ears(&list_of(&self.plan.ears));
        session.close().ok()?;
        let now = session.tables().ok()?.third_lengths();
        session.set_back().ok()?;
        Some([now, session.tables().ok()?.third_lengths()])
    }
}

/// Sites at document 01's limits; the one of 120 switches has the most links at each, the last two have lists that are refused at their end.
pub fn cases() -> Vec<Case> {
    let full = mixed(1024, 4096);
    vec![
        Case::of("full", full.clone()),
        Case::of("sparse", Shape { links: 0, cubic: true, ..full.clone() }),
        Case::of("many short ears", Shape { first_ear: 3, longest: 1, ..full.clone() }),
        Case::of("few long ears", Shape { first_ear: 500, longest: 400, ..full.clone() }),
        Case::of("hubs", Shape { hubs: 4, ..full.clone() }),
        Case { name: "low hubs", plan: low_hubs() },
        long_ear(),
        Case::of("120 switches", mixed(120, 4096)),
        Case { name: "refused at its end", plan: refused_at_its_end(1) },
        Case { name: "forty long ears refused", plan: refused_at_its_end(40) },
    ]
}

/// A first ear of 1,000 numbers; its closed tables have walks of that length.
pub fn long_ear() -> Case {
    Case::of("one ear of 1,000", Shape { first_ear: 1000, ..mixed(1024, 4096) })
}

/// The site of the table of growth with so many switches.
pub fn grown(switches: usize) -> Case {
    let plan = Plan::of(&mixed(switches, 4 * switches), &mut Random::new(2, switches as u64));
    Case { name: "growth", plan }
}

/// Ears of up to eight new switches.
fn mixed(switches: usize, links: usize) -> Shape {
    Shape {
        switches,
        links,
        first_ear: 5,
        longest: 8,
        hungry: 80,
        hubs: 0,
        cubic: false,
        short_ears: ShortEars::Anywhere,
        ducts: Ducts::None,
        tidy: false,
    }
}

/// Switches 0 to 4 are joined to one another and to all others, the highest of these less often once there are 4,096
/// links: each other switch is born between two of the hubs 0 to 3, and hub 4 is last.
fn low_hubs() -> Plan {
    let mut list = vec![vec![0, 2, 1], vec![0, 3, 1]];
    list.extend((5..1024).map(|s| vec![s % 4, s, (s + 1) % 4]));
    list.extend([vec![1, 4, 2], vec![0, 4], vec![3, 4], vec![2, 3]]);
    list.extend((5..1024).map(|s| vec![4, s]));
    let left = 4095 - list.iter().map(|ear| ear.len() - 1).sum::<usize>();
    let other = (5..1024).flat_map(|s| [vec![(s + 2) % 4, s], vec![(s + 3) % 4, s]]);
    list.extend(other.take(left));
    let mut plan = Plan::of_list(list, 1024, 4);
    mix(&mut plan.site.links, &mut Random::new(1, 5));
    plan
}

/// A list that closes but for 999 links, which stand last in the table. They are a walk through 1,000 switches, offered
/// so many times as one ear: it passes checks 7 to 10, and is refused since its switches are in earlier ears.
fn refused_at_its_end(times: usize) -> Plan {
    let mut random = Random::new(1, 14);
    let mut plan = Plan::of(&mixed(1024, 4096 - 999), &mut random);
    let joined: HashSet<(u16, u16)> =
        plan.site.links.iter().flat_map(|link| [(link.a, link.b), (link.b, link.a)]).collect();
    let mut left: Vec<u16> = (1..1024).collect();
    let mut walk = vec![0];
    while walk.len() < 1000 {
        let at = random.below(left.len());
        if !joined.contains(&(walk[walk.len() - 1], left[at])) {
            walk.push(left.swap_remove(at));
        }
    }
    plan.site.links.extend(walk.windows(2).map(|two| Link::from((two[0], two[1]))));
    plan.ears.extend(vec![walk; times]);
    plan
}

/// The script of a plan up to open, to its last ear, to close, and whole.
pub fn cuts_of(case: &Case) -> [String; 4] {
    let site = &case.plan.site;
    let mut script =
        format!("(net {} (root {}) (first {}) (last {}))\n", site.switches, site.root, site.first, site.last);
    for link in &site.links {
        script += &(link_line(link) + "\n");
    }
    script += "(open)\n";
    let open = script.clone();
    for ear in &case.plan.ears {
        let numbers: Vec<String> = ear.iter().map(u16::to_string).collect();
        script += &format!("(ear {})\n", numbers.join(" "));
    }
    let ears = script.clone();
    script += "(close)\n";
    let close = script.clone();
    for s in 0..site.switches {
        for tree in 1..=3 {
            script += &format!("(walk {s} {tree})\n");
        }
    }
    [open, ears, close, script]
}

#[cfg(test)]
mod tests {
    use super::*;
    use second_reading::dialogue;

    #[test]
    fn lists_close_or_are_refused_at_their_end() {
        for case in cases() {
            let [.., script] = cuts_of(&case);
            let mut output = Vec::new();
            dialogue::run(script.as_bytes(), &mut output, Plant::Nothing).unwrap();
            let refused: Vec<&[u8]> =
                output.split(|&c| c == b'\n').filter(|line| line.starts_with(b"(refused")).collect();
            let times = match case.name {
                "refused at its end" => 1,
                "forty long ears refused" => 40,
                _ => 0,
            };
            let wanted = if times == 0 {
                vec![]
            } else {
                let [ear, close, walk] = [&b"(refused 14 1)"[..], b"(refused 23 3097)", b"(refused 21 0)"];
                [vec![ear; times], vec![close], vec![walk; 3 * 1024]].concat()
            };
            assert_eq!(refused, wanted, "{}", case.name);
        }
    }
}
