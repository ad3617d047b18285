//! What a list starts at: nothing is held, and at most one node isn't good.

use cube_proved::frame;
use cube_reference::record::{set_condition, set_map, FAULTY, GOOD, SIZE, UNCONFIRMED};
use cube_reference::rng::Rng;
use cube_reference::session::fresh;

use crate::input;
use crate::pair::Pair;

/// The node that isn't good, if there is one, and its condition.
type Dead = Option<(u16, u8)>;

pub struct Start {
    pub pair: Pair,
    pub dead: Dead,
    /// Whether a relabel was called.
    pub is_relabelled: bool,
}

pub fn any(rng: &mut Rng, n: u32) -> Result<Start, String> {
    let node = rng.below(1 << n) as u16;
    let dead = rng.pick(&[None, Some((node, UNCONFIRMED)), Some((node, FAULTY))]);
    match rng.below(3) {
        0 => Ok(Start { pair: reported(rng, n, dead, None)?, dead, is_relabelled: false }),
        1 => {
            let late = late(rng, n, node);
            Ok(Start { pair: reported(rng, n, dead, Some(late))?, dead, is_relabelled: true })
        }
        _ => Ok(Start { pair: stored(rng, n, dead)?, dead, is_relabelled: false }),
    }
}

/// This node and a few that differ from it in one direction each.
fn late(rng: &mut Rng, n: u32, node: u16) -> Vec<u16> {
    let count = if n == 0 { 0 } else { rng.below(4) };
    let mut late: Vec<u16> = (0..count).map(|_| node ^ 1 << rng.below(n)).collect();
    late.push(node);
    late.sort_unstable();
    late.dedup();
    late
}

/// Set up and reported. If some nodes are late, there is a relabel before they
/// are good; one that isn't to be good stays as it is.
fn reported(rng: &mut Rng, n: u32, dead: Dead, late: Option<Vec<u16>>) -> Result<Pair, String> {
    let mut pair = Pair::new(input::bytes(rng, SIZE));
    accepted(pair.setup(n)?, "set-up")?;
    let is_dead = |node: u16| dead.is_some_and(|(dead, _)| dead == node);
    let is_late = |node: u16| late.iter().flatten().any(|late| *late == node);
    for node in (0..1 << n).filter(|node| !is_dead(*node) && !is_late(*node)) {
        accepted(pair.call(&frame::good(node), &[0; 12])?, "good")?;
    }
    if let Some((node, FAULTY)) = dead {
        accepted(pair.call(&frame::fault(node), &[0; 12])?, "fault")?;
    }
    if let Some(late) = late {
        accepted(pair.call(&frame::relabel(), &[0; 12])?, "relabel")?;
        for node in late.into_iter().filter(|node| !is_dead(*node)) {
            accepted(pair.call(&frame::good(node), &[0; 12])?, "good")?;
        }
    }
    Ok(pair)
}

/// As one comes back from disk, with any map.
fn stored(rng: &mut Rng, n: u32, dead: Dead) -> Result<Pair, String> {
    let mut record = fresh(n);
    set_map(&mut record, &input::any_map(rng, n));
    (0..1 << n).for_each(|node| set_condition(&mut record, node, GOOD));
    if let Some((node, condition)) = dead {
        set_condition(&mut record, node.into(), condition);
    }
    let pair = Pair::new(record.to_vec());
    accepted(pair.load()?, "load")?;
    Ok(pair)
}

fn accepted(number: u32, what: &str) -> Result<(), String> {
    match number {
        0 => Ok(()),
        _ => Err(format!("both gave {number} for {what} before the list")),
    }
}
