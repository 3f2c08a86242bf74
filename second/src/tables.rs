//! The order, the three parent tables and the walks of a closed session (document 01,
//! 'Order, tables and walks'), and its births, from which zones are found. Network and long ears stay: from them tree 3
//! is set by either rule.

use crate::judge::Judge;
use crate::network::Network;
use crate::order::Order;
use crate::thirds::Rule;
use crate::Plant;

#[derive(Debug)]
pub struct Tables {
    pub switches: usize,
    pub root: u16,
    pub network: Network,
    long_ears: Vec<Vec<u16>>,
    /// The switches in their order.
    pub order: Vec<u16>,
    /// For each switch the number of the long ear that it was born in.
    pub births: Vec<u16>,
    /// Row 0 is tree 1, and so on.
    parents: [Vec<u16>; 3],
    pub plant: Plant,
}

impl Tables {
    /// The tables of a judge that has no link left unused.
    pub fn of(judge: Judge, rule: Rule) -> Tables {
        let n = judge.network.switches;
        let root = judge.network.root;
        let mut towards_a = vec![root; n];
        let mut towards_b = vec![root; n];

        let first_ear = &judge.long_ears[0];
        let mut order = Order::begin(n, first_ear);
        // In the first ear the sides are root and first; first has parent
        // root in tree 2, and root is its own parent: both stand already.
        for two in first_ear.windows(2) {
            towards_a[two[1] as usize] = two[0];
            towards_b[two[0] as usize] = two[1];
        }
        towards_b[root as usize] = root;

        for ear in &judge.long_ears[1..] {
            let end = ear.len() - 1;
            let written_from_a = match judge.plant() {
                Plant::WrongParent => ear[0] < ear[end],
                _ => order.is_before(ear[0], ear[end]),
            };
            for place in 1..end {
                let (former, latter) = (ear[place - 1], ear[place + 1]);
                let (to_a, to_b) = if written_from_a { (former, latter) } else { (latter, former) };
                towards_a[ear[place] as usize] = to_a;
                towards_b[ear[place] as usize] = to_b;
            }
            let new = ear[1..end].iter().copied();
            if written_from_a {
                order.insert_after(ear[0], new);
            } else {
                order.insert_after(ear[end], new.rev());
            }
        }

        let (births, plant) = (judge.births(), judge.plant());
        let Judge { network, long_ears, .. } = judge;
        let order = order.to_list();
        let parents = [towards_a, towards_b, vec![root; n]];
        let mut tables = Tables { switches: n, root, network, long_ears, order, births, parents, plant };
        tables.set_thirds(rule);
        tables
    }

    /// Sets tree 3 by a rule; nothing else changes.
    pub fn set_thirds(&mut self, rule: Rule) {
        rule.write(&self.network, &self.births, &self.long_ears, &mut self.parents[2]);
    }

    /// The parent of a switch below N in a tree 1 to 3.
    pub fn parent(&self, switch: u16, tree: u16) -> u16 {
        self.parents[tree as usize - 1][switch as usize]
    }

    /// The walk of a switch below N in a tree 1 to 3.
    pub fn walk(&self, switch: u16, tree: u16) -> Vec<u16> {
        let mut walk = vec![switch];
        let mut at = switch;
        while at != self.root {
            at = self.parent(at, tree);
            walk.push(at);
            assert!(walk.len() <= self.switches, "a walk has at most N switches");
        }
        walk
    }

    /// Writes that walk at the start of a slice that has room for it, and gives its count of switches.
    pub fn write_walk(&self, switch: u16, tree: u16, out: &mut [u16]) -> Option<usize> {
        let row = &self.parents[tree as usize - 1];
        let (mut at, mut count) = (switch, 1);
        while at != self.root {
            at = row[at as usize];
            count += 1;
            assert!(count <= self.switches, "a walk has at most N switches");
        }
        at = switch;
        for place in out.get_mut(..count)? {
            *place = at;
            at = row[at as usize];
        }
        Some(count)
    }

    /// How many switches the longest third walk has, and all of them but the root's on average.
    pub fn third_lengths(&self) -> (usize, f64) {
        let others = (0..self.switches as u16).filter(|&s| s != self.root);
        let lengths: Vec<usize> = others.map(|s| self.walk(s, 3).len()).collect();
        let sum: usize = lengths.iter().sum();
        (lengths.iter().copied().max().unwrap_or(1), sum as f64 / lengths.len() as f64)
    }
}
