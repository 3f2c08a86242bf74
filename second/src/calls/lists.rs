//! Lists of ears that ask nobody, and damage to lists.
//! A list is damaged at an ear, at a number or a count, or at its end, where a count may then be past it.

use super::arguments::any_numbers;
use crate::random::Random;
use crate::session::list_of;

/// A list that asks nobody: of no number, of empty ears, of any numbers, of one ear with its count past the end, or of
/// these ears, damaged or not.
pub fn any_list(random: &mut Random, ears: Vec<Vec<u16>>) -> Vec<u16> {
    match random.below(20) {
        0 | 1 => Vec::new(),
        2 => empty_ears(random),
        3 => any_numbers(random, 30),
        4 if random.chance(10) => any_numbers(random, 70_000),
        4..=6 => {
            let past = u16::try_from(ears[0].len() + 1).unwrap_or(65535);
            [&[*random.pick(&[past, 65535])], &ears[0][..]].concat()
        }
        7..=10 => list_of(&ears),
        _ => damaged_list(random, ears),
    }
}

/// A list of empty ears, very rarely of more than 65,536.
pub fn empty_ears(random: &mut Random) -> Vec<u16> {
    let count = if random.chance(1) { 70_000 } else { random.within(1, 4) };
    vec![0; count]
}

/// The list of these ears with one of them dropped, doubled, exchanged or left without a number, or with other damage.
pub fn damaged_list(random: &mut Random, mut ears: Vec<Vec<u16>>) -> Vec<u16> {
    if ears.is_empty() {
        return vec![any_count(random)];
    }
    let (one, other) = (random.below(ears.len()), random.below(ears.len()));
    match random.below(10) {
        0 => drop(ears.remove(one)),
        1 => ears.insert(other, ears[one].clone()),
        2 => ears.swap(one, other),
        3 => ears.insert(one, Vec::new()),
        4 | 5 => return damaged_count(random, &ears, one),
        _ => return damaged_numbers(random, list_of(&ears)),
    }
    list_of(&ears)
}

/// A count, most often a small one or a very large one.
fn any_count(random: &mut Random) -> u16 {
    match random.below(4) {
        0 => random.number() as u16,
        1 => 65535,
        _ => random.below(5) as u16,
    }
}

/// The list with another count of one of its ears, most often one off.
fn damaged_count(random: &mut Random, ears: &[Vec<u16>], one: usize) -> Vec<u16> {
    let mut list = list_of(ears);
    let count = &mut list[list_of(&ears[..one]).len()];
    *count = match random.below(5) {
        0 => any_count(random),
        1 | 2 => count.wrapping_sub(1),
        _ => count.wrapping_add(1),
    };
    list
}

/// The list with a number changed, cut off anywhere or by one number, or with more behind it.
fn damaged_numbers(random: &mut Random, mut list: Vec<u16>) -> Vec<u16> {
    let place = random.below(list.len());
    match random.below(60) {
        0..=19 => list[place] = random.below(usize::from(list[place]) + 3) as u16,
        20..=29 => list.truncate(place),
        30..=39 => list.truncate(list.len() - 1),
        40 if random.chance(10) => list.resize(list.len() + 65536, list[place]),
        40..=49 => list.extend(any_numbers(random, 10)),
        _ => list.push(any_count(random)),
    }
    list
}
