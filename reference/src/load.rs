//! The loading call: document 02, (g). A record that comes back from disk is
//! one that a list of calls may begin at.

use crate::record::{self, Record};

/// Gives 0; or 1 for what refusal 1 meets; or 18 if some job's nodes and star
/// bits don't form a subcube. It writes nothing.
pub fn load(record: &[u8]) -> u32 {
    let Ok(record) = <&Record>::try_from(record) else {
        return 1;
    };
    if !record::is_valid(record) {
        return 1;
    }
    let held = record::held_nodes(record);
    let mut jobs = held.chunk_by(|a, b| a.0 == b.0);
    match jobs.all(|nodes| is_subcube(record, nodes)) {
        true => 0,
        false => 18,
    }
}

/// Whether the nodes of a job, ascending, are exactly the vertices of the
/// subcube that the star bits of the lowest give, and all store these. Each is a
/// vertex, and there are as many; so the lowest has no star, and no star bit is
/// beyond the cube.
fn is_subcube(record: &Record, nodes: &[(u16, u16)]) -> bool {
    let lowest = nodes[0].1;
    let stars = record::stars(record, lowest.into());
    nodes.len() == 1 << stars.count_ones()
        && nodes.iter().all(|(_, node)| {
            node & !stars == lowest && record::stars(record, (*node).into()) == stars
        })
}
