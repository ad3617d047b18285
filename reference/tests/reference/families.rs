//! Document 01, "Families and their order", for every n and k.

use std::collections::{BTreeSet, HashSet};

use cube_reference::rng::Rng;
use cube_reference::{choose, family, gray, Answer, Subcube};

use crate::support::*;

fn every_n_and_k() -> impl Iterator<Item = (u32, u32)> {
    (0..=10).flat_map(|n| (0..=n).map(move |k| (n, k)))
}

/// The counts that document 01 states and document 000's lemmas prove.
fn stated_count(strategy: u8, n: u32, k: u32) -> u32 {
    let blocks = 1 << (n - k);
    match strategy {
        _ if k == 0 => 1 << n,
        BUDDY => blocks,
        GRAY if k == n => 1,
        GRAY => 2 * blocks,
        TREE => (n - k + 1) * blocks,
        _ => (k * (n - k) + 1) * blocks,
    }
}

fn labels(n: u32, member: Subcube) -> impl Iterator<Item = u32> {
    (0..1 << n).filter(move |label| label & !member.stars == member.low)
}

#[test]
fn counts_are_as_stated() {
    for (n, k) in every_n_and_k() {
        for strategy in 0..=3 {
            let count = stated_count(strategy, n, k);
            assert_eq!(family(strategy, n, k).len() as u32, count);
            let none = choose(strategy, n, k, &|_| false);
            assert_eq!(none, Answer::NoneFree { count }, "{strategy} {n} {k}");
        }
    }
}

#[test]
fn members_are_subcubes_and_none_comes_twice() {
    for (n, k) in every_n_and_k() {
        for strategy in 0..=3 {
            let members = family(strategy, n, k);
            let distinct: HashSet<Subcube> = members.iter().copied().collect();
            assert_eq!(distinct.len(), members.len());
            for member in members {
                assert_eq!(member.stars.count_ones(), k);
                assert_eq!(member.low & member.stars, 0);
                assert!(member.low | member.stars < 1 << n);
            }
        }
    }
}

#[test]
fn buddy_ascends_by_lowest_label() {
    for (n, k) in every_n_and_k() {
        let members = family(BUDDY, n, k);
        assert!(members.windows(2).all(|pair| pair[0].low < pair[1].low));
        assert!(members.iter().all(|member| member.stars == (1 << k) - 1));
    }
}

#[test]
fn gray_members_are_the_stated_labels() {
    for (n, k) in every_n_and_k().filter(|(n, k)| 1 <= *k && k < n) {
        for (a, member) in (0..).zip(family(GRAY, n, k)) {
            let positions = a * (1 << (k - 1))..(a + 2) * (1 << (k - 1));
            let stated: BTreeSet<u32> = positions.map(|b| gray(b % (1 << n))).collect();
            assert_eq!(labels(n, member).collect::<BTreeSet<u32>>(), stated);
        }
    }
}

/// Each subcube of dimension k in an n-cube.
fn subcubes(n: u32, k: u32) -> impl Iterator<Item = Subcube> {
    let stars = (0..1u32 << n).filter(move |stars| stars.count_ones() == k);
    stars.flat_map(move |stars| {
        let lows = (0..1 << n).filter(move |low| low & stars == 0);
        lows.map(move |low| Subcube { low, stars })
    })
}

/// Its a and p on the n - k + 1 digits below the top d bits, if the top d and
/// the bottom k - 1 - d bits are stars and one of the others is.
fn digits(member: Subcube, n: u32, k: u32, d: u32) -> Option<(u32, u32)> {
    let is_star = |bit: u32| member.stars >> bit & 1 == 1;
    let bottom = k - 1 - d;
    let others: Vec<u32> = (bottom..n - d).filter(|bit| is_star(*bit)).collect();
    let ends = (n - d..n).all(is_star) && (0..bottom).all(is_star);
    match others[..] {
        [star] if ends => Some((member.low >> bottom & ((1 << (n - k + 1)) - 1), star - bottom)),
        _ => None,
    }
}

#[test]
fn tree_and_extended_are_sorted_choices_of_all_subcubes() {
    for (n, k) in every_n_and_k().filter(|(_, k)| *k >= 1) {
        let (mut tree, mut later) = (Vec::new(), Vec::new());
        for member in subcubes(n, k) {
            if let Some((a, p)) = digits(member, n, k, 0) {
                tree.push((a, p, member));
            }
            for d in 1..k {
                let place = digits(member, n, k, d).filter(|(_, p)| *p >= 1);
                later.extend(place.map(|(a, p)| (a, d, p, member)));
            }
        }
        tree.sort();
        later.sort();
        let mut stated: Vec<Subcube> = tree.iter().map(|entry| entry.2).collect();
        assert_eq!(family(TREE, n, k), stated);
        stated.extend(later.iter().map(|entry| entry.3));
        assert_eq!(family(EXTENDED, n, k), stated);
    }
}

#[test]
fn at_k_0_all_but_gray_ascend_by_label() {
    for n in 0..=10 {
        let single = |low| Subcube { low, stars: 0 };
        let ascending: Vec<Subcube> = (0..1 << n).map(single).collect();
        for strategy in [BUDDY, TREE, EXTENDED] {
            assert_eq!(family(strategy, n, 0), ascending);
        }
        let by_position: Vec<Subcube> = (0..1 << n).map(|b| single(gray(b))).collect();
        assert_eq!(family(GRAY, n, 0), by_position);
    }
}

/// The answer by the list: the first member whose labels are all free.
fn by_list(strategy: u8, n: u32, k: u32, free: &[bool]) -> Answer {
    let members = family(strategy, n, k);
    let is_free = |member: &Subcube| labels(n, *member).all(|label| free[label as usize]);
    match members.iter().position(is_free) {
        Some(at) => {
            let Subcube { low, stars } = members[at];
            Answer::Found { low, stars, tried: at as u32 + 1 }
        }
        None => Answer::NoneFree { count: members.len() as u32 },
    }
}

#[test]
fn choose_is_the_first_free_member_of_the_list() {
    let mut rng = Rng::new(1);
    let (mut found, mut none) = (0, 0);
    for round in 0..600 {
        let n = round % 7;
        let taken = 1 + rng.below(12);
        let free: Vec<bool> = (0..1 << n).map(|_| rng.below(12) >= taken / 2).collect();
        for (strategy, k) in (0..=3).flat_map(|s| (0..=n).map(move |k| (s, k))) {
            let answer = choose(strategy, n, k, &|label| free[label as usize]);
            assert_eq!(answer, by_list(strategy, n, k, &free), "{strategy} {n} {k} {free:?}");
            match answer {
                Answer::Found { .. } => found += 1,
                Answer::NoneFree { .. } => none += 1,
            }
        }
    }
    assert!(found > 1000 && none > 1000);
}

/// With only one member's labels free, that member is the answer, wherever
/// it stands in the list.
#[test]
fn choose_meets_each_member() {
    for (n, k) in every_n_and_k().filter(|(n, _)| *n <= 7) {
        for strategy in 0..=3 {
            for (tried, member) in (1..).zip(family(strategy, n, k)) {
                let Subcube { low, stars } = member;
                let answer = choose(strategy, n, k, &|label| label & !stars == low);
                assert_eq!(answer, Answer::Found { low, stars, tried });
            }
        }
    }
}
