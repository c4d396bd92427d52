//! Searches in periods at whose ends a comparison can slip. Each record is alone for its peer, so
//! that its period decides.

use reference::store::EDITIONS;

use crate::both::{Both, Step};
use crate::scene::Scene;
use reference::random::Random;

/// Around them a carry runs through bytes, or the sign or the end of the numbers is met.
const MOMENTS: [u32; 8] = [
    0,
    1,
    0xff,
    0x100,
    0x7fff_ffff,
    0x8000_0000,
    u32::MAX - 1,
    u32::MAX,
];

pub fn all(both: &mut Both, seed: u64) -> Step {
    for edition in EDITIONS {
        let mut scene = Scene::new(edition, seed ^ 34);
        let any = scene.random.u32();
        for moment in MOMENTS.into_iter().chain([any]) {
            let periods = periods(&mut scene.random, moment);
            search_all(both, &mut scene, &periods)?;
        }
    }
    Ok(())
}

/// Periods with the moment at one end: of it alone, with the start one after the end, from the
/// first moment of all, to the last, and with the other end unlike it in one byte only.
fn periods(random: &mut Random, moment: u32) -> Vec<[u32; 2]> {
    let mut periods = vec![
        [moment, moment],
        [moment.wrapping_add(1), moment],
        [0, moment],
        [moment, u32::MAX],
    ];
    for byte in 0..4 {
        let change = random.between(1, 255) as u32;
        let other = moment ^ change << (8 * byte);
        periods.extend([[moment, other], [other, moment]]);
    }
    periods
}

fn search_all(both: &mut Both, scene: &mut Scene, periods: &[[u32; 2]]) -> Step {
    let mut entries = scene.names.apart(&mut scene.random);
    entries.truncate(periods.len());
    for (entry, &[start, end]) in entries.iter_mut().zip(periods) {
        (entry.start, entry.end) = (start, end);
    }
    let store = scene.store(&entries);
    for entry in &entries {
        let peer = u32::from_be_bytes(entry.peers[0]);
        for t in [0, u32::MAX] {
            both.find(&store, peer, t)?;
        }
        for edge in [entry.start, entry.end] {
            for t in beside(edge) {
                both.find(&store, peer, t)?;
            }
        }
    }
    Ok(())
}

/// The moment, those beside it, and those that differ from it in one bit.
fn beside(edge: u32) -> impl Iterator<Item = u32> {
    let next = [edge, edge.wrapping_sub(1), edge.wrapping_add(1)];
    next.into_iter()
        .chain((0..32).map(move |bit| edge ^ 1 << bit))
}

#[cfg(test)]
mod tests {
    use super::{periods, MOMENTS};
    use reference::random::Random;

    /// The bytes in which two moments differ.
    fn unlike(start: u32, end: u32) -> Vec<usize> {
        let (start, end) = (start.to_be_bytes(), end.to_be_bytes());
        (0..4).filter(|&i| start[i] != end[i]).collect()
    }

    #[test]
    fn every_kind_of_period_is_made() {
        let mut random = Random::new(1);
        let all: Vec<[u32; 2]> = MOMENTS
            .iter()
            .flat_map(|&moment| periods(&mut random, moment))
            .collect();
        let has = |kind: &dyn Fn(u32, u32) -> bool| {
            assert!(all.iter().any(|&[start, end]| kind(start, end)));
        };
        has(&|start, end| start == end);
        has(&|start, end| end < start && start - end == 1);
        has(&|start, end| 0 < start && start < end && end == u32::MAX);
        has(&|start, end| start == 0 && 0 < end && end < u32::MAX);
        has(&|start, end| [start, end] == [0, u32::MAX]);
        for byte in 0..4 {
            has(&|start, end| start < end && unlike(start, end) == [byte]);
            has(&|start, end| end < start && unlike(start, end) == [byte]);
        }
    }
}
