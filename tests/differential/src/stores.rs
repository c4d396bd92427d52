//! Sound stores of both editions and of every size, from few names that meet often.

use reference::store::{Edition, Entry, KeyIdentifier, EDITION_1};
use reference::Identity;

use reference::random::Random;

/// 24 bytes of odd parity.
pub fn odd_kmac(random: &mut Random) -> [u8; 24] {
    random.array::<24>().map(|byte| {
        let upper = byte & 0xfe;
        upper | (1 ^ (upper.count_ones() as u8 & 1))
    })
}

/// An identity with another last digit, or with one other bit anywhere.
pub fn other_digit(random: &mut Random, identity: Identity) -> Identity {
    let mut other = identity;
    match random.below(3) {
        0 => other[3] = other[3].wrapping_add(1),
        1 => other[3] ^= 1 << random.below(8),
        _ => other[random.below(4)] ^= 1 << random.below(8),
    }
    other
}

/// The names that one run uses: few, and close to each other, so that they meet often.
pub struct Names {
    pub edition: Edition,
    pub own: Identity,
    pub centre: Identity,
    issuers: [Identity; 3],
    peers: Vec<Identity>,
    serials: usize,
    /// From one serial to the next: some strides leave the low bits alike.
    stride: u32,
    first_moment: u32,
}

impl Names {
    /// Names for stores of an edition. Edition 2 has more serials, so that its stores fill, and
    /// at times more peers, so that a search passes many records.
    pub fn new(edition: Edition, random: &mut Random) -> Names {
        let own = random.array();
        let issuer: Identity = random.array();
        let peer: Identity = random.array();
        let centre = if random.one_in(3) {
            other_digit(random, own)
        } else {
            random.array()
        };
        let times = edition.keys_max / EDITION_1.keys_max;
        let peer_names = 12 * random.pick(&[1, times * times]);
        Names {
            edition,
            own,
            centre,
            issuers: [issuer, other_digit(random, issuer), random.array()],
            peers: (0..peer_names)
                .map(|i| match i {
                    0 => peer,
                    1 => own,
                    2 => issuer,
                    3..=11 => other_digit(random, peer),
                    _ => neighbour(peer, i),
                })
                .collect(),
            serials: times * random.pick(&[4, 12, 30, 90]),
            stride: random.pick(&[0x0101_0001, 0x0101_0001, 1, 1 << 8, 1 << 13, 1 << 16]),
            first_moment: random.pick(&[0, 0x7fff_fff8, 0x1000_0000, 0xffff_fff0]),
        }
    }

    pub fn identifier(&self, random: &mut Random) -> KeyIdentifier {
        let serial = (random.below(self.serials) as u32).wrapping_mul(self.stride);
        KeyIdentifier {
            issuer: random.pick(&self.issuers),
            serial: serial.to_be_bytes(),
        }
    }

    pub fn peer(&self, random: &mut Random) -> Identity {
        random.pick(&self.peers)
    }

    pub fn peers(&self, random: &mut Random, count: usize) -> Vec<Identity> {
        (0..count).map(|_| self.peer(random)).collect()
    }

    /// A moment close to the others.
    pub fn moment(&self, random: &mut Random) -> u32 {
        if random.one_in(12) {
            return random.pick(&[0, 1, u32::MAX, u32::MAX - 1, 0x8000_0000]);
        }
        self.first_moment.wrapping_add(random.below(16) as u32)
    }

    /// A start and an end, most often in this order, so that several records of one peer fit at
    /// one moment. Many ends are equal; now and then one is unlike the others in one bit.
    pub fn period(&self, random: &mut Random) -> [u32; 2] {
        let mut period = [self.moment(random), self.moment(random)];
        if random.one_in(8) {
            period[1] ^= 1 << random.below(32);
        }
        if !random.one_in(4) {
            period.sort();
        }
        period
    }

    pub fn entry(&self, random: &mut Random, peer_count: usize) -> Entry {
        let [start, end] = self.period(random);
        Entry {
            key: self.identifier(random),
            kmac: odd_kmac(random),
            start,
            end,
            peers: self.peers(random, peer_count),
        }
    }

    /// Entries whose identifiers differ, within both limits.
    pub fn entries(&self, random: &mut Random, keys: usize, most_peers: usize) -> Vec<Entry> {
        let mut entries: Vec<Entry> = Vec::new();
        let mut free = self.edition.peers_max;
        for place in 0..keys.min(self.edition.keys_max) {
            let count = random.between(0, most_peers).min(free);
            let mut entry = self.entry(random, count);
            if entries.iter().any(|held| held.key == entry.key) {
                entry.key.serial = (0x00c0_0000 + place as u32).to_be_bytes();
            }
            free -= count;
            entries.push(entry);
        }
        entries
    }

    /// A sound store: empty, of a few, full of keys, full of peers or nearly, or full of both.
    pub fn sound(&self, random: &mut Random) -> Vec<Entry> {
        let most = self.edition.keys_max;
        match random.below(8) {
            0 => Vec::new(),
            1 => self.entries(random, 8, 6),
            2 => {
                let free = random.between(1, 9);
                self.filled(random, most - 2, free)
            }
            3 => self.entries(random, most, 3),
            4 => self.entries(random, most - 2, 4),
            5 => self.filled(random, most, 0),
            6 => self.filled(random, most / 2 + 8, 0),
            _ => {
                let keys = random.between(1, most);
                self.entries(random, keys, 30)
            }
        }
    }

    /// `keys` records that hold all peers together but those that are to stay free.
    pub fn filled(&self, random: &mut Random, keys: usize, free: usize) -> Vec<Entry> {
        let room = self.edition.peers_max - free;
        let most = random.pick(&[3, room / keys]);
        let mut entries = self.entries(random, keys, most);
        let used: usize = entries.iter().map(|entry| entry.peers.len()).sum();
        let place = random.below(entries.len());
        let rest = self.peers(random, room - used);
        entries[place].peers.extend(rest);
        entries
    }

    /// `keys` records with this many peers together, dealt to any of them, or all to one.
    pub fn counted(&self, random: &mut Random, keys: usize, peers: usize) -> Vec<Entry> {
        let mut entries = self.entries(random, keys, 0);
        let to_one = random.one_in(3);
        let chosen = random.below(keys.max(1));
        for peer in self.peers(random, peers) {
            let place = if to_one { chosen } else { random.below(keys) };
            entries[place].peers.push(peer);
        }
        entries
    }

    /// A full store in which no peer stands twice, so that a search can end at each record.
    pub fn apart(&self, random: &mut Random) -> Vec<Entry> {
        let mut entries = self.entries(random, self.edition.keys_max, 0);
        let share = self.edition.peers_max / self.edition.keys_max;
        let first: Identity = random.array();
        for (place, entry) in entries.iter_mut().enumerate() {
            let places = share * place..share * (place + 1);
            entry.peers = places.map(|i| neighbour(first, i)).collect();
            entry.end = entry.start.saturating_add(random.between(1, 4) as u32);
        }
        entries
    }
}

fn neighbour(identity: Identity, step: usize) -> Identity {
    let number = u32::from_be_bytes(identity);
    number.wrapping_add(step as u32).to_be_bytes()
}

#[cfg(test)]
mod tests {
    use super::{odd_kmac, Names};
    use crate::layout::{key_count, peer_count};
    use reference::random::Random;
    use reference::store::{decode, encode, EDITIONS};

    #[test]
    fn made_kmacs_have_odd_parity() {
        let mut random = Random::new(1);
        let kmac = odd_kmac(&mut random);
        assert!(kmac.iter().all(|byte| byte.count_ones() % 2 == 1));
    }

    #[test]
    fn sound_stores_are_sound_and_reach_both_limits() {
        for edition in EDITIONS {
            let (mut most_keys, mut most_peers) = (0, 0);
            for seed in 0..200 {
                let mut random = Random::new(seed);
                let entries = Names::new(edition, &mut random).sound(&mut random);
                assert_eq!(decode(&encode(edition, &entries)), Some(entries.clone()));
                let peers = entries.iter().map(|entry| entry.peers.len()).sum();
                most_keys = most_keys.max(entries.len());
                most_peers = most_peers.max(peers);
            }
            let limits = (edition.keys_max, edition.peers_max);
            assert_eq!((most_keys, most_peers), limits);
        }
    }

    #[test]
    fn a_filled_store_has_exactly_the_room_that_was_asked() {
        for edition in EDITIONS {
            for seed in 0..40 {
                let mut random = Random::new(seed);
                let names = Names::new(edition, &mut random);
                let (keys, free) = (random.between(1, edition.keys_max), random.below(5));
                let entries = names.filled(&mut random, keys, free);
                let peers: usize = entries.iter().map(|entry| entry.peers.len()).sum();
                assert_eq!((entries.len(), peers), (keys, edition.peers_max - free));
            }
        }
    }

    #[test]
    fn a_counted_store_has_the_counts_that_were_asked() {
        for edition in EDITIONS {
            let mut random = Random::new(7);
            let names = Names::new(edition, &mut random);
            for (keys, peers) in [(0, 0), (1, 0), (1, 256), (64, 1), (64, 256)] {
                let entries = names.counted(&mut random, keys, peers);
                let store = encode(edition, &entries);
                assert_eq!((key_count(&store), peer_count(&store)), (keys, peers));
                assert_eq!(decode(&store), Some(entries));
            }
        }
    }

    #[test]
    fn a_store_of_peers_apart_is_full_and_has_none_twice() {
        for edition in EDITIONS {
            let mut random = Random::new(6);
            let entries = Names::new(edition, &mut random).apart(&mut random);
            let mut peers: Vec<_> = entries.iter().flat_map(|entry| &entry.peers).collect();
            peers.sort();
            peers.dedup();
            let limits = (edition.keys_max, edition.peers_max);
            assert_eq!((entries.len(), peers.len()), limits);
            assert_eq!(decode(&encode(edition, &entries)), Some(entries));
        }
    }
}
