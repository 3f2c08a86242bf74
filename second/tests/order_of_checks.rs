//! Document 02, Note 3: check 14 comes directly after 10 and before 11.
//! Which answers changed by that, and which did not.

use std::collections::HashSet;

use second_reading::brute;
use second_reading::every::{all_joined, card_k_site, judge_of, paths, wheel_site, worked_site};
use second_reading::judge::Judge;
use second_reading::network::Site;
use second_reading::seen::{Crossed, CrossedEars, Seen};
use second_reading::Refusal;

/// The judge of the site after the ear 0 2 1.
fn after_first_ear(site: &Site) -> Judge {
    let mut judge = judge_of(site);
    assert_eq!(judge.ear(&[0, 2, 1]), Ok(3));
    judge
}

/// What the ear was refused by, and is refused by now: number and place.
fn both(judge: &mut Judge, ear: &[u16]) -> [(u8, usize); 2] {
    let told = |refusal: Option<Refusal>| refusal.map(|refusal| (refusal.number, refusal.place));
    [told(judge.former_refusal(ear)), told(judge.refusal(ear))].map(|told| told.expect("the ear is refused"))
}

#[test]
fn an_unborn_end_and_a_born_switch_between_the_ends_was_13_and_is_14() {
    let mut judge = after_first_ear(&all_joined(5));
    assert_eq!(both(&mut judge, &[3, 0, 4]), [(13, 0), (14, 1)]);
    assert_eq!(both(&mut judge, &[1, 3, 2, 4]), [(13, 3), (14, 2)]);
}

#[test]
fn three_or_more_numbers_with_a_used_link_were_11_and_are_14() {
    let mut judge = after_first_ear(&all_joined(5));
    assert_eq!(both(&mut judge, &[0, 2, 3, 1]), [(11, 0), (14, 1)]);
    assert_eq!(both(&mut judge, &[4, 3, 2, 1]), [(11, 2), (14, 2)]);
    // The closing link of the first ear is used too.
    assert_eq!(both(&mut judge, &[1, 0, 3]), [(11, 0), (14, 1)]);
}

#[test]
fn two_numbers_with_a_used_link_are_11_as_before() {
    let mut judge = after_first_ear(&all_joined(5));
    for ear in [[0, 2], [2, 1], [1, 0]] {
        assert_eq!(both(&mut judge, &ear), [(11, 0); 2], "{ear:?}");
    }
}

#[test]
fn a_born_switch_between_born_ends_over_unused_links_is_14_as_before() {
    let mut judge = after_first_ear(&all_joined(6));
    assert_eq!(judge.ear(&[2, 3, 1]), Ok(1));
    assert_eq!(judge.ear(&[3, 4, 1]), Ok(1));
    assert_eq!(both(&mut judge, &[3, 0, 4]), [(14, 1); 2]);
}

/// Each ear runs through the born switch 2 too, and all but the first over a used link.
#[test]
fn checks_7_to_10_still_come_first() {
    let mut judge = after_first_ear(&Site { last: 3, ..wheel_site() });
    for (ear, number, place) in [
        (&[4, 2, 3][..], 10, 0),
        (&[0, 2, 1, 3], 10, 2),
        (&[0, 2, 1, 0], 9, 3),
        (&[0, 2, 5], 8, 2),
        (&[0, 2, 1, 0, 2, 1], 7, 0),
    ] {
        assert_eq!(both(&mut judge, ear), [(number, place); 2], "{ear:?}");
    }
}

/// Holds one ear against the note: `crossed` is its case by the note's words, after the list.
fn hold(judge: &mut Judge, list: &[Vec<u16>], ear: &[u16], crossed: Option<Crossed>) {
    let [former, now] = [judge.former_refusal(ear), judge.refusal(ear)];
    let number = |refusal: Option<Refusal>| refusal.map(|refusal| refusal.number);
    let said = || format!("{ear:?} after {list:?}: {former:?}, {now:?}");
    match crossed {
        None => assert_eq!(former, now, "{}", said()),
        Some(crossed) => {
            let was = if crossed == Crossed::UsedLink { 11 } else { 13 };
            let place = brute::crossed_at(list, ear).expect("a switch between the ends is born");
            assert_eq!((number(former), now), (Some(was), Some(Refusal { number: 14, place })), "{}", said());
        }
    }
    assert_eq!(judge.crossed(ear), crossed, "{}", said());
    assert!(number(now) != Some(11) || ear.len() == 2, "{}", said());
    assert!(number(now) != Some(14) || !list.is_empty(), "{}", said());
}

/// A judge, and the ears that it has accepted.
type Accepted = (Judge, Vec<Vec<u16>>);

/// Holds every path that is offered after an accepted list. Gives the lists that are one ear longer.
fn hold_after(site: &Site, paths: &[Vec<u16>], accepted: Accepted, seen: &mut CrossedEars) -> Vec<Accepted> {
    let (mut judge, list) = accepted;
    let mut longer = Vec::new();
    for ear in paths {
        let crossed = brute::crossed(site, &list, ear);
        hold(&mut judge, &list, ear, crossed);
        if let Some(crossed) = crossed {
            seen.add(crossed);
        }
        if judge.refusal(ear).is_none() {
            let mut next = judge.clone();
            next.ear(ear).unwrap();
            longer.push((next, [&list[..], std::slice::from_ref(ear)].concat()));
        }
    }
    longer
}

/// The same for every accepted list, one for each set of used links. That set decides the born switches too: a switch
/// is born exactly when one of its links is used.
fn hold_all(site: &Site) -> CrossedEars {
    let (mut seen, mut reached) = (CrossedEars::default(), HashSet::new());
    let paths = paths(site);
    let mut lists = vec![(judge_of(site), Vec::new())];
    while let Some(accepted) = lists.pop() {
        let longer = hold_after(site, &paths, accepted, &mut seen);
        let used = |judge: &Judge| -> Vec<bool> { (0..site.links.len()).map(|link| judge.is_used(link)).collect() };
        lists.extend(longer.into_iter().filter(|(judge, _)| reached.insert(used(judge))));
    }
    seen
}

#[test]
fn the_answers_that_change_are_the_two_of_the_note() {
    for site in [wheel_site(), Site { last: 3, ..wheel_site() }, card_k_site(), all_joined(5), all_joined(6)] {
        assert_eq!(hold_all(&site).missing(), [""; 0], "{site:?}");
    }
    // Of four switches one is unborn after the first ear, and then every link between born ones is used.
    assert_eq!(hold_all(&worked_site()).missing(), ["a crossed ear with an unborn end"]);
}
