//! Document 02, (g): the loading call. A record loads if each job's nodes are
//! exactly a subcube with the stored star bits; which do is worked out by hand,
//! or they are made of subcubes.

use cube_reference::load;
use cube_reference::rng::Rng;

use crate::placed::{any_cubes, Placed};
use crate::support::*;

/// Nodes of a job: these, each with these star bits.
type Job<'a> = (u16, &'a [usize], u16);

/// A fresh record in which these jobs hold these nodes.
fn holding(n: u32, jobs: &[Job]) -> Cube {
    let mut cube = Cube::new(n);
    for (job, nodes, stars) in jobs {
        nodes.iter().for_each(|node| cube.hold(*node, *job, *stars));
    }
    cube
}

fn gives(n: u32, jobs: &[Job], number: u32) {
    let cube = holding(n, jobs);
    assert_eq!(load(&cube.record), number, "n {n}, {jobs:?}");
    assert_ne!(returned(&cube.record), 1, "18 is no concern of refusal 1");
}

#[test]
fn a_fresh_record_loads() {
    for n in 0..=10 {
        gives(n, &[], 0);
    }
}

#[test]
fn subcubes_load() {
    gives(0, &[(1, &[0], 0)], 0);
    gives(3, &[(9, &[5], 0)], 0);
    gives(3, &[(9, &[4, 5], 1)], 0);
    gives(3, &[(9, &[1, 3], 2)], 0);
    gives(3, &[(9, &[3, 7], 4)], 0);
    gives(3, &[(9, &[2, 3, 6, 7], 5)], 0);
    gives(3, &[(9, &[0, 2, 4, 6], 6)], 0);
    gives(3, &[(1, &[0, 4], 4), (2, &[1, 5], 4), (65535, &[2, 3, 6, 7], 5)], 0);
    gives(3, &[(256, &[0, 1], 1), (1, &[2], 0), (257, &[3, 7], 4)], 0);
    gives(10, &[(1, &[1, 513], 0x200), (2, &[0, 256, 512, 768], 0x300)], 0);
}

#[test]
fn a_whole_cube_loads() {
    for n in 0..=10 {
        let all: Vec<usize> = (0..1 << n).collect();
        let last = (1 << n) - 1;
        gives(n, &[(65535, &all, last)], 0);
        // 2^n jobs, ascending and descending.
        let mut up = Cube::new(n);
        let mut down = Cube::new(n);
        for node in 0..=last {
            up.hold(node.into(), node + 1, 0);
            down.hold(node.into(), 65535 - node, 0);
        }
        assert_eq!([load(&up.record), load(&down.record)], [0, 0]);
        let half = all.len().div_ceil(2);
        gives(n, &[(1, &all[..half], last / 2), (2, &all[half..], last / 2)], 0);
    }
}

#[test]
fn a_torn_subcube_is_refused_with_18() {
    gives(3, &[(9, &[4], 1)], 18);
    gives(3, &[(9, &[5], 1)], 18);
    gives(3, &[(9, &[0, 1, 2], 3)], 18);
    gives(3, &[(9, &[1, 2, 3], 3)], 18);
    gives(3, &[(9, &[0, 1, 3], 3)], 18);
    gives(3, &[(9, &[2, 3, 6], 5)], 18);
    // Another job has the node that lacks.
    gives(3, &[(9, &[0, 1, 2], 3), (8, &[3], 0)], 18);
    gives(3, &[(9, &[0, 1, 2], 3), (8, &[3], 3)], 18);
}

#[test]
fn a_node_too_many_is_refused_with_18() {
    gives(3, &[(9, &[4, 6], 0)], 18);
    gives(3, &[(9, &[4, 5, 6], 1)], 18);
    gives(3, &[(9, &[0, 4, 5], 1)], 18);
    gives(3, &[(9, &[0, 1, 2, 3, 7], 3)], 18);
    // As many as a subcube of two stars has, but one in place of another.
    gives(3, &[(9, &[0, 1, 2, 7], 3)], 18);
    gives(3, &[(9, &[0, 3, 5, 6], 3)], 18);
}

#[test]
fn two_subcubes_of_one_job_are_refused_with_18() {
    gives(3, &[(9, &[0, 1], 1), (9, &[6, 7], 1)], 18);
    gives(3, &[(9, &[0, 1], 1), (9, &[2, 3], 1)], 18);
    gives(3, &[(9, &[0, 1], 1), (9, &[3, 7], 4)], 18);
    gives(3, &[(9, &[0], 0), (9, &[1], 0)], 18);
    gives(3, &[(9, &[0, 1], 1), (9, &[5], 0)], 18);
    gives(3, &[(9, &[0, 1], 1), (8, &[2, 3], 1), (9, &[4, 5], 1)], 18);
    // They have low bytes, or high ones, in common, and are two jobs.
    gives(3, &[(9, &[0, 1], 1), (9 + 256, &[2, 3], 1)], 0);
    gives(3, &[(0x0900, &[0, 1], 1), (0x0901, &[2, 3], 1)], 0);
}

#[test]
fn other_star_bits_are_refused_with_18() {
    // At all nodes.
    gives(3, &[(9, &[4, 5], 0)], 18);
    gives(3, &[(9, &[4, 5], 2)], 18);
    gives(3, &[(9, &[4, 5], 3)], 18);
    gives(3, &[(9, &[0, 1, 2, 3], 5)], 18);
    gives(3, &[(9, &[2, 3, 6, 7], 3)], 18);
    // At one alone, the lowest or another.
    gives(3, &[(9, &[0], 1), (9, &[1, 2, 3], 3)], 18);
    gives(3, &[(9, &[0], 0), (9, &[1, 2, 3], 3)], 18);
    gives(3, &[(9, &[0, 1, 2], 3), (9, &[3], 1)], 18);
    gives(3, &[(9, &[0, 1, 2], 3), (9, &[3], 0)], 18);
    gives(3, &[(9, &[0, 1, 2], 3), (9, &[3], 7)], 18);
    gives(3, &[(9, &[0, 1, 2], 3), (9, &[3], 0x103)], 18);
    gives(3, &[(9, &[0, 2, 3], 3), (9, &[1], 0x8003)], 18);
}

#[test]
fn a_star_in_the_lowest_node_is_refused_with_18() {
    gives(1, &[(9, &[1], 1)], 18);
    gives(3, &[(9, &[4, 5], 4)], 18);
    gives(3, &[(9, &[4, 5], 5)], 18);
    gives(3, &[(9, &[6, 7], 3)], 18);
    gives(3, &[(9, &[4, 5, 6, 7], 7)], 18);
    gives(10, &[(9, &[512, 513], 513)], 18);
}

#[test]
fn star_bits_beyond_the_cube_are_refused_with_18() {
    for n in 0..=10 {
        for bit in n..16 {
            gives(n, &[(9, &[0], 1 << bit)], 18);
            let all: Vec<usize> = (0..1 << n).collect();
            gives(n, &[(9, &all, ((1 << n) - 1) | 1 << bit)], 18);
        }
    }
    gives(0, &[(1, &[0], 65535)], 18);
    gives(10, &[(1, &[0, 1023], 65535)], 18);
}

/// The right jobs stand before the wrong one, and behind it.
#[test]
fn every_job_is_tested() {
    for job in [1, 5, 300, 65535] {
        let others: [Job; 3] = [(4, &[0, 1], 1), (6, &[4], 0), (1000, &[8, 9, 10, 11], 3)];
        for nodes in [[2], [5], [12]] {
            gives(4, &[&others[..], &[(job, &nodes, 0)]].concat(), 0);
            gives(4, &[&others[..], &[(job, &nodes, 1)]].concat(), 18);
        }
    }
}

/// A record that 1 meets gives 1, whatever its jobs hold.
#[test]
fn refusal_1_comes_first() {
    let torn: &[Job] = &[(9, &[0, 1, 2], 3)];
    for (place, value) in [(0, 0), (2, 1), (4, 11), (5, 9), (8, 5), (15, 1)] {
        for jobs in [&[], torn] {
            let mut cube = holding(3, jobs);
            cube.record[place] = value;
            assert_eq!(load(&cube.record), 1, "byte {place}");
        }
    }
    let places = [HOLDERS + 16, CONDITIONS + 8, STARS + 16, STARS + 14, SIZE - 1];
    for place in places {
        for jobs in [&[], torn] {
            let mut cube = holding(3, jobs);
            cube.record[place] = 1; // beyond the cube, or of node 7, which is unheld
            assert_eq!(load(&cube.record), 1, "byte {place}");
            assert_eq!(returned(&cube.record), 1, "byte {place}");
        }
    }
    let mut cube = holding(3, torn);
    cube.record[CONDITIONS] = 3;
    assert_eq!(load(&cube.record), 1);
}

#[test]
fn another_size_gives_1() {
    let torn: &[Job] = &[(9, &[0, 1, 2], 3)];
    for jobs in [&[], torn] {
        let record = holding(3, jobs).record;
        for size in [0, 1, 4, 16, 3088, 5135] {
            assert_eq!(load(&record[..size]), 1);
        }
        assert_eq!(load(&[&record[..], &[0]].concat()), 1);
        assert_eq!(load(&[record.clone(), record].concat()), 1);
    }
    assert_eq!(load(&[0; SIZE]), 1);
    assert_eq!(load(&[0xff; SIZE]), 1);
}

/// A held node may be faulty, or was never reported; and the map is any.
#[test]
fn conditions_of_held_nodes_and_the_map_do_not_matter() {
    for conditions in [[0, 0], [1, 1], [2, 2], [0, 2], [1, 2], [2, 1]] {
        let mut cube = holding(3, &[(9, &[1, 5], 4), (8, &[6], 0)]);
        (cube.record[CONDITIONS + 1], cube.record[CONDITIONS + 5]) = conditions.into();
        cube.record[CONDITIONS + 6] = conditions[0];
        assert_eq!(load(&cube.record), 0);
        cube.record[5..8].copy_from_slice(&[3, 1, 2]);
        assert_eq!(load(&cube.record), 0);
        [1, 5].into_iter().for_each(|node| cube.hold(node, 9, 2)); // the stars as a label's
        assert_eq!(load(&cube.record), 18);
    }
}

/// Job 9 holds 1 and 5, of which 5 is faulty, from before these calls.
#[test]
fn what_a_loaded_record_holds_counts_as_granted_before() {
    let mut cube = Cube::with_not_good(3, &[], &[5]);
    [1, 5].into_iter().for_each(|node| cube.hold(node, 9, 4));
    for (frame, got) in [
        (relabel(), refused(13, 0)),
        (request(9, 0, BUDDY), refused(10, 0)),
        (request(8, 1, BUDDY), granted(8, 2, 1, 2)), // 0 and 1, then 2 and 3
        (grow(9, 1, BUDDY), refused(17, 0)),
        (grow(9, 2, BUDDY), refused(14, 2)),
        (fault(5), Got::Done(9)),
        (release(8), Got::Done(2)),
        (grow(9, 2, BUDDY), granted(9, 0, 3, 1)), // 1 is kept, 5 is lost
        (fault(5), Got::Done(0)),
        (release(9), Got::Done(4)),
        (relabel(), Got::Done(0)),
    ] {
        assert_eq!(load(&cube.record), 0);
        assert_eq!(cube.call(&frame), got, "{frame:x?}");
    }
    assert_eq!(load(&cube.record), 0);
}

/// All records of n up to 2 with two jobs and these star bits: those load that
/// two disjoint subcubes make, and no others.
#[test]
fn small_cubes_load_exactly_if_made_of_subcubes() {
    let stars = [0, 1, 2, 3, 4, 7];
    let fields: Vec<(u16, u16)> = [7, 8].iter().flat_map(|job| stars.map(|s| (*job, s))).collect();
    let fields = [&[(0, 0)], &fields[..]].concat();
    for (n, made) in [(0, 3), (1, 1 + 2 * 3 + 2), (2, 1 + 2 * 9 + 12 + 16 + 4)] {
        let all = Placed::of_two(n, [7, 8]);
        assert_eq!(all.len(), made, "n {n}");
        let nodes = 1 << n;
        for mut number in 0..fields.len().pow(nodes) {
            let mut cube = Cube::new(n);
            for node in 0..nodes as usize {
                let (job, stars) = fields[number % fields.len()];
                cube.hold(node, job, stars);
                number /= fields.len();
            }
            let expected = if all.contains(&cube.record) { 0 } else { 18 };
            assert_eq!(load(&cube.record), expected, "n {n}, {:?}", &cube.record[STARS..][..8]);
        }
    }
}

/// Records made of random subcubes load; with one field of one node changed they
/// don't, if the node's job had more than one, or gets one more.
#[test]
fn one_changed_node_tears_a_subcube() {
    let mut rng = Rng::new(5);
    for round in 0..440 {
        let (cube, placed) = any_cubes((round % 11) as u32, &mut rng);
        assert_eq!(load(&cube.record), 0, "{placed:?}");
        let Some((job, lowest, stars)) = placed.pick(&mut rng) else { continue };
        let node = usize::from(lowest | rng.number() as u16 & stars);
        let with = |node, job, stars| {
            let mut changed = Cube { record: cube.record.clone() };
            changed.hold(node, job, stars);
            load(&changed.record)
        };
        for bit in 0..16 {
            assert_eq!(with(node, job, stars ^ 1 << bit), 18, "{job}, node {node}: {placed:?}");
        }
        if stars != 0 {
            assert_eq!(with(node, 0, 0), 18);
            assert_eq!(with(node, placed.unused(), 0), 18);
            assert_eq!(with(node, placed.unused(), stars), 18);
        }
        for other in (0..1 << cube.record[4]).filter(|x| at(&cube.record, HOLDERS + 2 * x) != job) {
            assert_eq!(with(other, job, stars), 18, "{job} with {other}: {placed:?}");
        }
    }
}
