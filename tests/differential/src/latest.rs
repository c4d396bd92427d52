//! Searches where several records of the peer fit: the one with the latest end is taken, the first
//! of them where several have it, and that end is given (change request 7). Which record that is
//! follows from how each store is made, and is asked of the library beside the second program.

use reference::refusal::H11;
use reference::store::{Entry, EDITIONS};
use reference::Identity;

use crate::both::{find_call, named, Both, Step};
use crate::compare::numbers;
use crate::scene::Scene;
use crate::stores::other_digit;
use reference::random::Random;

/// The moment of most searches.
const T: u32 = 0x6000_0000;

/// Ends at which a carry runs through bytes, or the sign or the end of the numbers is met.
const ENDS: [u32; 12] = [
    0,
    1,
    0xff,
    0x100,
    0xffff,
    0x1_0000,
    0xff_ffff,
    0x100_0000,
    0x7fff_ffff,
    0x8000_0000,
    u32::MAX - 1,
    u32::MAX,
];

/// What a record is to a search at T.
#[derive(Clone, Copy, PartialEq, Eq, Debug)]
enum Kind {
    /// Ends so many moments after T.
    Fits(u32),
    NotBegun,
    Ended,
    OtherPeer,
}

use Kind::{Ended, Fits, NotBegun, OtherPeer};

const KINDS: [Kind; 6] = [Fits(0), Fits(1), Fits(2), NotBegun, Ended, OtherPeer];

pub fn all(both: &mut Both, seed: u64) -> Step {
    for edition in EDITIONS {
        let mut search = Search::new(Scene::new(edition, seed ^ 35));
        search.small_stores(both)?;
        search.orders(both)?;
        search.two_ends(both)?;
        search.every_moment(both)?;
        search.peer_lists(both)?;
        search.every_place(both)?;
        search.two_places(both)?;
    }
    Ok(())
}

struct Search {
    scene: Scene,
    /// A full store's records; each test gives them peers and periods.
    entries: Vec<Entry>,
    peer: Identity,
}

impl Search {
    fn new(mut scene: Scene) -> Search {
        let most = scene.names.edition.keys_max;
        Search {
            entries: scene.names.entries(&mut scene.random, most, 0),
            peer: scene.random.array(),
            scene,
        }
    }

    /// A search for the peer, and the record that the papers tell, by its place from 0: its place
    /// and its end are the answer.
    fn gives(&self, both: &mut Both, entries: &[Entry], t: u32, taken: Option<usize>) -> Step {
        let store = self.scene.store(entries);
        let peer = u32::from_be_bytes(self.peer);
        let (answer, end) = both.find(&store, peer, t)?;
        let (answer, end) = (answer.into(), u32::from_ne_bytes(end).into());
        let refused = -i64::from(H11);
        named(
            || find_call(&store, peer, t),
            || match taken {
                None => numbers("refusal of the papers", refused, answer),
                Some(place) => {
                    let record = &entries[place];
                    numbers("place of the papers", place as i64 + 1, answer)?;
                    numbers("end of the papers", record.end.into(), end)
                }
            },
        )
    }

    /// Records of these kinds, in this order.
    fn of_kinds(&mut self, kinds: &[Kind]) -> Vec<Entry> {
        let mut entries = self.entries[..kinds.len()].to_vec();
        for (entry, &kind) in entries.iter_mut().zip(kinds) {
            self.become_kind(entry, kind);
        }
        entries
    }

    fn become_kind(&mut self, entry: &mut Entry, kind: Kind) {
        let random = &mut self.scene.random;
        let begun = random.pick(&[0, T - 1, T]);
        (entry.start, entry.end) = match kind {
            Fits(after) => (begun, T + after),
            NotBegun => (T + 1, u32::MAX),
            Ended => (0, T - 1),
            OtherPeer => (begun, u32::MAX),
        };
        let count = random.between(1, 3);
        entry.peers = others(random, self.peer, count);
        if kind != OtherPeer {
            entry.peers[random.below(count)] = self.peer;
        }
    }

    /// Records of these periods that have the peer alone.
    fn of_periods(&self, periods: impl IntoIterator<Item = [u32; 2]>) -> Vec<Entry> {
        let entries = periods.into_iter().zip(&self.entries);
        entries
            .map(|([start, end], entry)| Entry {
                start,
                end,
                peers: vec![self.peer],
                ..entry.clone()
            })
            .collect()
    }

    /// All lists of up to four records of each kind: equal ends in every order, the latest first,
    /// last and between, and records that end later and do not fit before and behind it.
    fn small_stores(&mut self, both: &mut Both) -> Step {
        for length in 0..=4 {
            for number in 0..KINDS.len().pow(length) {
                let digit = |place| number / KINDS.len().pow(place) % KINDS.len();
                let kinds: Vec<Kind> = (0..length).map(|place| KINDS[digit(place)]).collect();
                let entries = self.of_kinds(&kinds);
                self.gives(both, &entries, T, first_of_latest(&kinds))?;
            }
        }
        Ok(())
    }

    /// All orders of records of which one has the latest start, one the longest period, and two
    /// the latest end of those that fit.
    fn orders(&self, both: &mut Both) -> Step {
        let latest = T + 9;
        let periods = [
            [T, T + 1],
            [0, latest - 1],
            [T - 1, latest],
            [T - 2, latest],
            [T + 1, u32::MAX],
        ];
        let entries = self.of_periods(periods);
        for order in orders_of(entries.len()) {
            let ordered: Vec<Entry> = order.iter().map(|&i| entries[i].clone()).collect();
            let taken = order.iter().position(|&i| periods[i][1] == latest);
            self.gives(both, &ordered, T, taken)?;
        }
        Ok(())
    }

    /// Two ends that are equal, or on the two sides of a carry, or unlike in one bit, in either
    /// order, at the first moment of all and at the last one that both fit.
    fn two_ends(&mut self, both: &mut Both) -> Step {
        let any = self.scene.random.u32();
        let pairs = ENDS.iter().flat_map(|&first| ENDS.map(|end| [first, end]));
        let bits = [0, any, T, u32::MAX]
            .into_iter()
            .flat_map(|end| (0..32).map(move |bit| [end, end ^ 1 << bit]))
            .flat_map(|[end, other]| [[end, other], [other, end]]);
        for [first, second] in pairs.chain(bits) {
            let entries = self.of_periods([[0, first], [0, second]]);
            let taken = Some(usize::from(second > first));
            for t in [0, first.min(second)] {
                self.gives(both, &entries, t, taken)?;
            }
        }
        Ok(())
    }

    /// Periods of ten moments, each one later than the one before it: the last that has begun ends
    /// last.
    fn every_moment(&self, both: &mut Both) -> Step {
        const PERIODS: usize = 16;
        let rising = self.of_periods((0..PERIODS as u32).map(|i| [T + i, T + i + 9]));
        let falling: Vec<Entry> = rising.iter().rev().cloned().collect();
        for moment in 0..PERIODS + 9 {
            let begun = moment.min(PERIODS - 1);
            let t = T + moment as u32;
            self.gives(both, &rising, t, Some(begun))?;
            self.gives(both, &falling, t, Some(PERIODS - 1 - begun))?;
        }
        for t in [0, T - 1, T + PERIODS as u32 + 9, u32::MAX] {
            self.gives(both, &rising, t, None)?;
        }
        Ok(())
    }

    /// The latest end in a record of few peers and of as many as there is room for: the peer first,
    /// in the middle, last, twice, and as the whole list. A record that ends earlier stands on
    /// either side, with the peer twice.
    fn peer_lists(&mut self, both: &mut Both) -> Step {
        let room = self.scene.names.edition.peers_max - 4;
        for count in [1, 2, 3, 100, room] {
            let last = count - 1;
            let all: Vec<usize> = (0..count).collect();
            for places in [&[0][..], &[count / 2], &[last], &[0, last], &all] {
                let mut entries = self.of_periods([[0, T + 1], [0, T + 2], [0, T + 1]]);
                entries[0].peers.push(self.peer);
                entries[2].peers.push(self.peer);
                entries[1].peers = others(&mut self.scene.random, self.peer, count);
                for &place in places {
                    entries[1].peers[place] = self.peer;
                }
                self.gives(both, &entries, T, Some(1))?;
            }
        }
        Ok(())
    }

    /// The latest end at every place of a full store in which all others fit too, and at some
    /// places among those that end later and do not fit.
    fn every_place(&mut self, both: &mut Both) -> Step {
        let keys = self.entries.len();
        for place in 0..keys {
            self.among(both, Fits(1), &[place])?;
        }
        for other in [NotBegun, OtherPeer] {
            for place in some_places(&mut self.scene.random, keys) {
                self.among(both, other, &[place])?;
            }
        }
        Ok(())
    }

    /// The latest end at two places of a full store, and at all.
    fn two_places(&mut self, both: &mut Both) -> Step {
        let keys = self.entries.len();
        let places = some_places(&mut self.scene.random, keys);
        for &first in &places {
            for &second in &places {
                for other in [Fits(1), NotBegun, OtherPeer] {
                    self.among(both, other, &[first, second])?;
                }
            }
        }
        let all: Vec<usize> = (0..keys).collect();
        self.among(both, Ended, &all)
    }

    /// A full store of one kind, with the latest end at these places.
    fn among(&mut self, both: &mut Both, kind: Kind, latest: &[usize]) -> Step {
        let mut kinds = vec![kind; self.entries.len()];
        latest.iter().for_each(|&place| kinds[place] = Fits(2));
        let entries = self.of_kinds(&kinds);
        self.gives(both, &entries, T, latest.iter().copied().min())
    }
}

/// Peers that are close to this one.
fn others(random: &mut Random, peer: Identity, count: usize) -> Vec<Identity> {
    (0..count).map(|_| other_digit(random, peer)).collect()
}

fn first_of_latest(kinds: &[Kind]) -> Option<usize> {
    let fitting = [Fits(2), Fits(1), Fits(0)];
    let place = |&fits: &Kind| kinds.iter().position(|&kind| kind == fits);
    fitting.iter().find_map(place)
}

/// Those at both ends, beside them and in the middle, and two others.
fn some_places(random: &mut Random, count: usize) -> Vec<usize> {
    let others = [random.below(count), random.below(count)];
    let mut places = vec![0, 1, count / 2, count - 2, count - 1];
    places.extend(others);
    places
}

/// All orders of so many things: the last of them at each place of each order of the others.
fn orders_of(count: usize) -> Vec<Vec<usize>> {
    let Some(last) = count.checked_sub(1) else {
        return vec![vec![]];
    };
    let insert = |order: Vec<usize>| {
        (0..count).map(move |at| [&order[..at], &[last], &order[at..]].concat())
    };
    orders_of(last).into_iter().flat_map(insert).collect()
}

#[cfg(test)]
mod tests {
    use super::{first_of_latest, orders_of, Kind, Search, KINDS, T};
    use super::{Ended, Fits, NotBegun, OtherPeer};
    use crate::layout::fits;
    use crate::scene::Scene;
    use reference::store::{decode, EDITIONS};

    #[test]
    fn records_are_of_their_kind_and_stores_sound() {
        for edition in EDITIONS {
            let mut search = Search::new(Scene::new(edition, 1));
            let kinds: Vec<Kind> = (0..edition.keys_max).map(|i| KINDS[i % 6]).collect();
            let entries = search.of_kinds(&kinds);
            let store = search.scene.store(&entries);
            let peer = u32::from_be_bytes(search.peer);
            for (place, kind) in kinds.iter().enumerate() {
                let is_fit = matches!(kind, Fits(_));
                assert_eq!(fits(&store, place, peer, T), is_fit);
                let is_later = matches!(kind, NotBegun | OtherPeer);
                assert_eq!(entries[place].end > T + 2, is_later);
            }
            assert_eq!(decode(&store), Some(entries));
        }
    }

    #[test]
    fn the_first_of_the_latest_is_told() {
        let told = |kinds: &[Kind]| first_of_latest(kinds);
        assert_eq!(told(&[]), None);
        assert_eq!(told(&[NotBegun, Ended, OtherPeer]), None);
        assert_eq!(told(&[Fits(1), Fits(2), Fits(0), Fits(2)]), Some(1));
        assert_eq!(told(&[OtherPeer, Fits(0), NotBegun, Fits(0)]), Some(1));
    }

    #[test]
    fn orders_are_all_and_differ() {
        let mut orders = orders_of(5);
        orders.sort();
        orders.dedup();
        assert_eq!(orders.len(), 120);
        for mut order in orders {
            order.sort();
            assert_eq!(order, [0, 1, 2, 3, 4]);
        }
    }
}
