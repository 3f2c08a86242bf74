//! Three maintenance zones (document 02, Note 4), found as document 000, Application 5, does: in time linear in N, from
//! the births and the order of a closed list alone.

use crate::network::MAX_SWITCHES;

/// Whether a network of so many switches can have zones of these sizes.
pub fn are_sizes(sizes: [u16; 3], switches: usize) -> bool {
    !sizes.contains(&0) && sizes.map(usize::from).iter().sum::<usize>() == switches
}

/// Writes the zone of each switch by its number into the first N places; `births` has the long ear of each switch.
///
/// The ear that is cut is the first by which zones 1 and 2 have switches enough. Zone 3 has what is born later, which
/// hangs together, and of the cut ear the switches that are too many, in one piece: each has a neighbour born later.
/// The others are parted by their order, zone 1 first: each but root has an earlier neighbour among them, its parent in
/// tree 1, and each but first a later one, in tree 2. For this the piece begins where zone 1 is full, or at the start
/// of the cut ear if zone 1 is full before it, or else ends with that ear: what stands before the piece in its ear
/// hangs on A, which is in zone 1 then, and what stands behind it on B, which is in zone 2 then. In the first ear root
/// stands before it, and first behind it.
pub fn write_zones(births: &[u16], order: &[u16], [size1, size2, _]: [u16; 3], zones: &mut [u16]) {
    let size1 = usize::from(size1);
    let Cut { ear, kept, piece } = Cut::of(births, size1 + usize::from(size2));
    let in_order = order.iter().map(|&s| births[s as usize]);
    let ahead = in_order.take_while(|&birth| birth != ear).filter(|&birth| birth < ear).count();
    let start = size1.clamp(ahead, ahead + kept);
    let before = size1.min(start);
    let zones = &mut zones[..births.len()];
    zones.fill(3);
    let mut born = order.iter().map(|&s| usize::from(s)).filter(|&s| births[s] <= ear);
    for (count, zone) in [(before, 1), (start - before, 2), (piece, 3), (size1 - before, 1), (usize::MAX, 2)] {
        born.by_ref().take(count).for_each(|s| zones[s] = zone);
    }
}

/// The ear that is cut, and how many of its switches are in zones 1 and 2, and in zone 3.
struct Cut {
    ear: u16,
    kept: usize,
    piece: usize,
}

impl Cut {
    /// The first ear by which so many switches are born.
    fn of(births: &[u16], wanted: usize) -> Cut {
        let mut new = [0u16; MAX_SWITCHES];
        for &ear in births {
            new[ear as usize] += 1;
        }
        let (mut ear, mut kept) = (0, wanted);
        while usize::from(new[ear]) < kept {
            kept -= usize::from(new[ear]);
            ear += 1;
        }
        Cut { ear: ear as u16, kept, piece: usize::from(new[ear]) - kept }
    }
}
