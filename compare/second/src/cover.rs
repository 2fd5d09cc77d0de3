//! The planner: the placement of least rank that covers the worn cells of a map.

use crate::figures::{Figures, MAX_RUNS};

/// The starts of least rank whose runs cover every worn cell. Refusals 3 4 6.
pub fn cover(f: &Figures, map: &[u8]) -> Result<[u16; MAX_RUNS], u8> {
    if map.len() != f.n {
        return Err(3);
    }
    if map.iter().any(|&cell| cell > 1) {
        return Err(4);
    }
    let mut starts = [0; MAX_RUNS];
    // The last run weighs most in the rank: each run goes as far left as the runs before it and the last worn cell allow.
    // Going further left never hurts the runs before it, which then have fewer cells to cover.
    let mut end = f.n;
    for i in (0..f.m).rev() {
        let worn = map[..end].iter().rposition(|&cell| cell == 1);
        let reach = worn.map_or(0, |cell| (cell + 1).saturating_sub(f.b));
        end = reach.max(i * f.b);
        starts[i] = end as u16;
    }
    if map[..end].contains(&1) {
        return Err(6);
    }
    Ok(starts)
}
