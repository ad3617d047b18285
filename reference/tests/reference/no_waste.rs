//! Document 02, (n): no waste with one dead node. The test itself counts the free
//! nodes left: those at the start less the sizes granted.

use cube_reference::load;
use cube_reference::rng::Rng;

use crate::support::*;

/// The node that isn't good, if there is one.
#[derive(Clone, Copy, Debug, PartialEq, Eq)]
enum Dead {
    No,
    Silent(u16),
    Faulty(u16),
}

impl Dead {
    fn any(n: u32, rng: &mut Rng) -> Dead {
        let node = rng.below(1 << n) as u16;
        rng.pick(&[Dead::No, Dead::Silent(node), Dead::Faulty(node)])
    }

    fn each(n: u32) -> Vec<Dead> {
        let nodes = (0..1 << n).flat_map(|node| [Dead::Silent(node), Dead::Faulty(node)]);
        nodes.chain([Dead::No]).collect()
    }

    /// How many nodes are good.
    fn good(self, n: u32) -> u32 {
        (1 << n) - u32::from(self != Dead::No)
    }

    /// A cube so reported, with nothing held.
    fn cube(self, n: u32) -> Cube {
        match self {
            Dead::No => Cube::with_not_good(n, &[], &[]),
            Dead::Silent(node) => Cube::with_not_good(n, &[node], &[]),
            Dead::Faulty(node) => Cube::with_not_good(n, &[], &[node]),
        }
    }
}

/// One request, held to the promise. Gives the free nodes left after it.
fn ask(cube: &mut Cube, job: u16, k: u8, left: u32) -> u32 {
    let size = 1 << k;
    match cube.call(&request(job, k, BEST_FIT)) {
        Got::Granted { job: told, stars, .. } if size <= left => {
            assert_eq!((told, stars.count_ones()), (job, k.into()));
            left - size
        }
        Got::Refused { number: 14, .. } if size > left => left,
        got => panic!("{got:?} for k {k} of job {job} with {left} nodes free"),
    }
}

/// Other nodes fail too, the cube is relabelled, and they are good again.
fn relabelled(cube: &mut Cube, dead: Dead, n: u32, rng: &mut Rng) {
    let mut others: Vec<u16> = (0..rng.below(4)).map(|_| rng.below(1 << n) as u16).collect();
    others.retain(|node| ![Dead::Silent(*node), Dead::Faulty(*node)].contains(&dead));
    others.sort_unstable();
    others.dedup();
    for node in &others {
        assert_eq!(cube.call(&fault(*node)), Got::Done(0));
    }
    assert!(matches!(cube.call(&relabel()), Got::Done(_)));
    for call in others.iter().flat_map(|node| [repaired(*node), good(*node)]) {
        assert_eq!(cube.call(&call), Got::Done(0));
    }
}

/// Gives the cube any map, by no relabel.
fn any_map(cube: &mut Cube, n: u32, rng: &mut Rng) {
    for i in (1..n as usize).rev() {
        cube.record.swap(5 + i, 5 + rng.below(i as u32 + 1) as usize);
    }
}

/// Sizes that come to a part of the cube or to more than it, of one k or of
/// several, ascending, descending or as drawn. Then each k from n down to 0, which
/// takes what is left whatever it is, and 0 once more.
fn dimensions(n: u32, rng: &mut Rng) -> Vec<u8> {
    let (top, mut rest) = (rng.below(n + 1), rng.below((2 << n) + 1) as i32);
    let least = rng.pick(&[0, 0, top]);
    let mut drawn = Vec::new();
    while rest > 0 {
        let k = least + rng.below(top - least + 1);
        drawn.push(k as u8);
        rest -= 1 << k;
    }
    match rng.below(3) {
        0 => drawn.sort_unstable(),
        1 => drawn.sort_unstable_by_key(|k| n as u8 - k),
        _ => {}
    }
    drawn.into_iter().chain((0..=n as u8).rev()).chain([0]).collect()
}

/// Jobs of any numbers: an odd factor gives none twice, and not 0.
fn jobs(rng: &mut Rng) -> impl Iterator<Item = u16> {
    let factor = rng.number() as u16 | 1;
    (1..=u16::MAX).map(move |place| place.wrapping_mul(factor))
}

/// Whether each node that has a holder is good, and each good one has a holder.
fn is_full(cube: &Cube) -> bool {
    let is_held = |node: usize| at(&cube.record, HOLDERS + 2 * node) != 0;
    (0..1024).all(|node| is_held(node) == (cube.record[CONDITIONS + node] == 1))
}

#[test]
fn each_is_granted_exactly_when_enough_nodes_are_free() {
    let mut rng = Rng::new(9);
    let (mut mapped, mut wanting) = ([0; 11], [0; 11]);
    for round in 0..660 {
        let n = round % 11;
        let dead = Dead::any(n, &mut rng);
        let mut cube = dead.cube(n);
        match rng.below(3) {
            0 => relabelled(&mut cube, dead, n, &mut rng),
            1 => any_map(&mut cube, n, &mut rng),
            _ => {}
        }
        assert_eq!(load(&cube.record), 0);
        mapped[n as usize] += u32::from((1..=10).any(|i| usize::from(cube.direction(i)) != i));
        let mut left = dead.good(n);
        for (k, job) in dimensions(n, &mut rng).into_iter().zip(jobs(&mut rng)) {
            wanting[n as usize] += u32::from(0 < left && left < 1 << k);
            left = ask(&mut cube, job, k, left);
        }
        assert!(left == 0 && is_full(&cube), "n {n}, {dead:?}");
    }
    assert!(mapped[2..].iter().all(|count| *count >= 5), "maps not the identity: {mapped:?}");
    assert!(wanting[1..].iter().all(|count| *count >= 5), "refused with nodes free: {wanting:?}");
}

/// Asks for each k, and goes on from each grant. A refusal leaves the record, so
/// these are all lists there are but for the jobs' numbers.
fn every_list(cube: &Cube, job: u16, left: u32) {
    for k in 0..=cube.record[4] {
        let mut next = Cube { record: cube.record.clone() };
        let after = ask(&mut next, job, k, left);
        match after < left {
            true => every_list(&next, job + 1, after),
            false => assert!(next.record == cube.record),
        }
    }
}

/// The permutations of 1 to n.
fn maps(n: u8) -> Vec<Vec<u8>> {
    let longer = |map: Vec<u8>, i: u8| (0..i).map(move |place| inserted(&map, place, i));
    (1..=n).fold(vec![vec![]], |maps, i| maps.into_iter().flat_map(|m| longer(m, i)).collect())
}

fn inserted(map: &[u8], place: u8, i: u8) -> Vec<u8> {
    let (before, after) = map.split_at(place.into());
    [before, &[i], after].concat()
}

fn every_list_under(map: &[u8], n: u32) {
    for dead in Dead::each(n) {
        let mut cube = dead.cube(n);
        cube.record[5..][..map.len()].copy_from_slice(map);
        assert_eq!(load(&cube.record), 0);
        every_list(&cube, 1, dead.good(n));
    }
}

#[test]
fn every_list_of_a_small_cube_under_every_map() {
    for (n, count) in [(0, 1), (1, 1), (2, 2), (3, 6)] {
        let maps = maps(n);
        assert_eq!(maps.len(), count);
        maps.iter().for_each(|map| every_list_under(map, n.into()));
    }
}

#[test]
fn every_list_of_sixteen_nodes() {
    every_list_under(&[3, 1, 4, 2], 4);
}
