//! The search: which record is taken, its end and its KMAC, and the refusals.

use super::{assert_fits, entries, entry, found, full, k_validity, peers, Bench, WRONG_LENGTHS};
use crate::message::kind;
use crate::store::{encode, find, key, Edition, Entry, EDITIONS, EDITION_1, EDITION_2};
use crate::Identity;

/// A peer that no number has.
const SHARED: Identity = [7; 4];

/// A record of this period for the shared peer alone.
fn shared(number: u32, [start, end]: [u32; 2]) -> Entry {
    let peers = vec![SHARED];
    Entry {
        start,
        end,
        peers,
        ..entry(number, 1)
    }
}

/// Such records, numbered from 1.
fn all_shared(periods: &[[u32; 2]]) -> Vec<Entry> {
    (1..)
        .zip(periods)
        .map(|(number, &period)| shared(number, period))
        .collect()
}

/// Asserts that both calls of a search for the shared peer give the record at a place.
fn assert_takes_in(edition: Edition, list: &[Entry], t: u32, place: usize) {
    let taken = &list[place - 1];
    let store = encode(edition, list);
    assert_eq!(find(&store, &SHARED, t), found(place, taken.end));
    assert_eq!(key(&store, &SHARED, t), taken.kmac);
}

fn assert_takes(list: &[Entry], t: u32, place: usize) {
    for edition in EDITIONS {
        assert_takes_in(edition, list, t, place);
    }
}

/// Asserts that the place is taken where these are the periods of all records.
fn assert_taken(periods: &[[u32; 2]], t: u32, place: usize) {
    assert_takes(&all_shared(periods), t, place);
}

/// All orders of a list.
fn orders<T: Clone>(list: &[T]) -> Vec<Vec<T>> {
    if list.is_empty() {
        return vec![vec![]];
    }
    let mut all = Vec::new();
    for i in 0..list.len() {
        let mut rest = list.to_vec();
        let first = rest.remove(i);
        for order in orders(&rest) {
            all.push([vec![first.clone()], order].concat());
        }
    }
    all
}

/// Asserts that in every order of the list its first entry is taken.
fn assert_first_taken_in_all_orders(list: &[Entry], t: u32) {
    for order in orders(list) {
        let taken = order.iter().position(|entry| *entry == list[0]).unwrap();
        assert_takes(&order, t, taken + 1);
    }
}

/// Asserts that both calls of a search refuse: the number alone, and no part.
fn assert_refused(store: &[u8], peer: &Identity, t: u32, refusal: u8) {
    assert_eq!(find(store, peer, t), Err(refusal));
    assert_eq!(key(store, peer, t), []);
}

/// The store has records that fit, so that an end could be given.
#[test]
fn search_refusals_in_order() {
    for edition in EDITIONS {
        let sound = encode(edition, &all_shared(&[[10, 20], [10, 21]]));
        let mut unsound = sound.clone();
        unsound[edition.length() - 1] = 1;
        for length in WRONG_LENGTHS {
            let mut store = unsound.clone();
            store.resize(length, 0);
            assert_refused(&store, &[9; 4], 0, 1);
            assert_refused(&store, &SHARED, 15, 1);
        }
        assert_refused(&unsound, &[9; 4], 0, 12);
        assert_refused(&unsound, &SHARED, 15, 12);
        assert_refused(&sound, &[9; 4], 15, 11);
        assert_refused(&sound, &SHARED, 9, 11);
        assert_refused(&sound, &SHARED, 22, 11);
        assert_refused(&encode(edition, &[]), &SHARED, 15, 11);
        assert_eq!(find(&sound, &SHARED, 15), found(2, 21));
    }
}

#[test]
fn as_time_goes_on_another_record_is_taken() {
    for edition in EDITIONS {
        let mut list = entries(&[1, 1, 1, 1]);
        for entry in &mut list[1..] {
            entry.peers.push(SHARED);
        }
        // Where the second ends the third begins: both fit, and the third ends later.
        list[1].end = list[2].start;
        let store = encode(edition, &list);
        assert_eq!(find(&store, &SHARED, 0x1002), found(2, 0x1003));
        assert_eq!(find(&store, &SHARED, 0x1003), found(3, 0x2003));
        assert_eq!(find(&store, &SHARED, 0x1004), found(4, 0x2004));
        assert_eq!(find(&store, &SHARED, 0x2003), found(4, 0x2004));
        assert_eq!(find(&store, &SHARED, 0x2004), found(4, 0x2004));
        assert_eq!(find(&store, &SHARED, 0x2005), Err(11));
        assert_eq!(find(&store, &list[0].peers[0], 0x1004), found(1, 0x2001));
    }
}

#[test]
fn search_finds_the_last_record_and_the_last_peer() {
    for (edition, places) in [(EDITION_1, 64), (EDITION_2, 500)] {
        let list = full(edition);
        let store = encode(edition, &list);
        let last = list.last().unwrap();
        let last_peer = last.peers.last().unwrap();
        assert_eq!(find(&store, last_peer, last.start), found(places, last.end));
    }
}

#[test]
fn search_compares_unsigned() {
    let period = [0x7fff_ffff, 0xffff_fffe];
    let outside = [0, 0x7fff_fffe, 0xffff_ffff];
    assert_fits(period, &[0x7fff_ffff, 0x8000_0000, 0xffff_fffe], &outside);
}

#[test]
fn a_period_with_its_start_after_its_end_never_fits() {
    for [start, end] in [[200, 100], [101, 100], [u32::MAX, 0]] {
        let between = end + (start - end) / 2;
        let moments = [0, end, end + 1, between, start - 1, start, u32::MAX];
        assert_fits([start, end], &[], &moments);
    }
}

#[test]
fn the_first_and_the_last_moment_of_all_fit() {
    assert_fits([0, 9], &[0, 9], &[10, u32::MAX]);
    assert_fits([9, u32::MAX], &[9, u32::MAX], &[0, 8]);
    assert_fits([0, 0], &[0], &[1, u32::MAX]);
    assert_fits([u32::MAX; 2], &[u32::MAX], &[0, u32::MAX - 1]);
}

/// The moments differ from the start or the end in one byte, by one up or down.
#[test]
fn all_four_bytes_of_start_and_end_are_compared() {
    let moment = 0x2080_7f10;
    for at in 0..4 {
        let step = 1 << (8 * at);
        let (below, above) = (moment - step, moment + step);
        assert_fits([moment, u32::MAX], &[moment, above], &[below]);
        assert_fits([0, moment], &[below, moment], &[above]);
    }
}

#[test]
fn a_record_without_peers_never_fits() {
    for edition in EDITIONS {
        let list = entries(&[0, 1]);
        let peer = list[1].peers[0];
        assert_eq!(
            find(&encode(edition, &list), &peer, 0x1002),
            found(2, 0x2002)
        );
        let alone = encode(edition, &list[..1]);
        assert_eq!(find(&alone, &peer, 0x1002), Err(11));
    }
}

/// So it is first, last and everywhere between.
#[test]
fn the_latest_end_is_taken_in_every_order() {
    let periods = [[10, 50], [10, 20], [10, 30], [10, 40]];
    for t in [10, 15, 20] {
        assert_first_taken_in_all_orders(&all_shared(&periods), t);
    }
}

#[test]
fn of_equal_ends_the_first_is_taken() {
    let (earlier, later) = ([10, 20], [10, 21]);
    assert_taken(&[later, later, later], 15, 1);
    assert_taken(&[later, later, earlier], 15, 1);
    assert_taken(&[later, earlier, later], 15, 1);
    assert_taken(&[earlier, later, later], 15, 2);
    assert_taken(&[later, earlier, earlier], 15, 1);
    assert_taken(&[earlier, later, earlier], 15, 2);
    assert_taken(&[earlier, earlier, later], 15, 3);
    assert_taken(&[earlier, earlier, earlier], 15, 1);
}

/// Neither an earlier nor a later start goes before the order of the store.
#[test]
fn the_start_does_not_choose_between_equal_ends() {
    for starts in orders(&[1, 2, 3]) {
        let periods: Vec<_> = starts.iter().map(|&start| [start, 9]).collect();
        assert_taken(&periods, 5, 1);
    }
}

/// The others have the latest start, the longest period, the earliest end of all that fit, and an end before T.
#[test]
fn nothing_but_the_end_is_preferred() {
    let periods = [[12, 30], [14, 20], [0, 29], [13, 15], [0, 14]];
    assert_first_taken_in_all_orders(&all_shared(&periods), 15);
}

/// Not begun yet, with the start after the end, for another peer, or for none.
#[test]
fn a_later_end_that_does_not_serve_is_passed_over() {
    let fits = shared(1, [10, 20]);
    let not_begun = shared(2, [16, 30]);
    let reversed = shared(3, [32, 31]);
    let mut of_other = shared(4, [10, 40]);
    of_other.peers = vec![[7, 7, 7, 6], [6, 7, 7, 7]];
    let mut of_none = shared(5, [10, u32::MAX]);
    of_none.peers.clear();
    let list = [fits, not_begun, reversed, of_other, of_none];
    assert_first_taken_in_all_orders(&list, 15);
}

#[test]
fn the_first_and_the_last_end_of_all() {
    const LAST: u32 = u32::MAX;
    assert_taken(&[[0, 0], [0, 0]], 0, 1);
    assert_taken(&[[0, 0], [0, 1]], 0, 2);
    assert_taken(&[[0, 1], [0, 0]], 0, 1);
    assert_taken(&[[1, 0], [0, 0]], 0, 2);
    assert_taken(&[[0, 0], [0, LAST], [0, 0]], 0, 2);
    assert_taken(&[[0, LAST - 1], [0, LAST], [0, LAST]], 0, 2);
    assert_taken(&[[0, LAST], [0, LAST - 1]], 0, 1);
    assert_taken(&[[LAST, LAST], [0, LAST]], LAST, 1);
    assert_taken(&[[0, LAST], [LAST, LAST]], LAST, 1);
    assert_taken(&[[0, LAST - 1], [LAST, LAST]], LAST, 2);
}

#[test]
fn ends_are_compared_unsigned() {
    for [later, earlier] in [
        [0x8000_0000, 0x7fff_ffff],
        [u32::MAX, 0x7fff_ffff],
        [u32::MAX, 0],
        [0xffff_fffe, 0x8000_0000],
    ] {
        assert_taken(&[[0, later], [0, earlier]], 0, 1);
        assert_taken(&[[0, earlier], [0, later]], 0, 2);
    }
}

/// The ends differ in one byte, by one.
#[test]
fn all_four_bytes_of_the_ends_are_compared() {
    let end = 0x2080_7f10;
    for at in 0..4 {
        let step = 1 << (8 * at);
        for [earlier, later] in [[end - step, end], [end, end + step]] {
            assert_taken(&[[0, earlier], [0, later]], 9, 2);
            assert_taken(&[[0, later], [0, earlier]], 9, 1);
        }
    }
}

/// The lower bytes say the contrary of the one that decides.
#[test]
fn the_first_byte_of_the_ends_that_differs_decides() {
    for later in [0x100, 0x3_0000, 0x8100_0000] {
        let earlier = later - 1;
        assert_taken(&[[0, earlier], [0, later]], 9, 2);
        assert_taken(&[[0, later], [0, earlier]], 9, 1);
    }
}

/// The shared peer is the first, one in the middle and the last of a list that fills the store.
#[test]
fn a_record_of_many_peers_is_taken_as_one_of_few() {
    for edition in EDITIONS {
        let most = edition.peers_max - 2;
        for at in [0, most / 2, most - 1] {
            let mut many = shared(2, [10, 21]);
            many.peers = peers(2, most);
            many.peers[at] = SHARED;
            let few = |end| shared(1, [10, end]);
            let last = |end| shared(3, [10, end]);
            assert_takes_in(edition, &[few(20), many.clone(), last(20)], 15, 2);
            assert_takes_in(edition, &[few(20), many.clone(), last(21)], 15, 2);
            assert_takes_in(edition, &[few(20), many.clone(), last(22)], 15, 3);
            assert_takes_in(edition, &[few(21), many, last(21)], 15, 1);
        }
    }
}

#[test]
fn a_peer_twice_in_a_list_counts_once() {
    let mut twice = shared(1, [10, 20]);
    twice.peers = vec![SHARED, [8; 4], SHARED];
    let once = |end| shared(2, [10, end]);
    assert_takes(&[twice.clone(), once(21)], 15, 2);
    assert_takes(&[once(21), twice.clone()], 15, 1);
    assert_takes(&[twice.clone(), once(20)], 15, 1);
    assert_takes(&[once(20), twice.clone()], 15, 1);
    assert_takes(&[once(19), twice], 15, 2);
}

/// One record or two of a full store end later than all others.
#[test]
fn the_latest_end_is_taken_in_a_full_store() {
    for edition in EDITIONS {
        let all = all_shared(&vec![[10, 20]; edition.keys_max]);
        let last = all.len();
        assert_takes_in(edition, &all, 15, 1);
        for [one, other] in [[1, last], [2, last / 2], [last / 2, last - 1], [last, last]] {
            let mut list = all.clone();
            list[other - 1].end = 21;
            assert_takes_in(edition, &list, 15, other);
            list[one - 1].end = 21;
            assert_takes_in(edition, &list, 15, one);
        }
    }
}

/// All stores of three records whose starts and ends are 0, 1 or 2, at each of these moments.
#[test]
fn what_is_taken_fits_and_none_is_better() {
    let numbers = || 0..3;
    let periods: Vec<_> = numbers()
        .flat_map(|start| numbers().map(move |end| [start, end]))
        .collect();
    for first in &periods {
        for second in &periods {
            for third in &periods {
                let list = [*first, *second, *third];
                for edition in EDITIONS {
                    let store = encode(edition, &all_shared(&list));
                    numbers().for_each(|t| assert_none_better(&store, &list, t));
                }
            }
        }
    }
}

/// Asserts that a record is taken exactly where one fits, that it fits itself, that none that fits ends later,
/// and that none of its end stands before it.
fn assert_none_better(store: &[u8], periods: &[[u32; 2]], t: u32) {
    let fits = |[start, end]: [u32; 2]| start <= t && t <= end;
    let taken = match find(store, &SHARED, t) {
        Ok(taken) => taken,
        Err(refusal) => {
            assert_eq!(refusal, 11);
            assert!(!periods.iter().any(|&period| fits(period)));
            return;
        }
    };
    let period = periods[taken.place - 1];
    assert!(fits(period));
    assert_eq!(taken.end, period[1]);
    for (place, &[start, end]) in (1..).zip(periods) {
        if fits([start, end]) {
            assert!(end < taken.end || end == taken.end && place >= taken.place);
        }
    }
}

/// Only the place may differ.
#[test]
fn entries_in_another_order_give_the_same_end() {
    let list = all_shared(&[[1, 5], [2, 6], [4, 6], [3, 3], [6, 4]]);
    for edition in EDITIONS {
        let ends = |list: &[Entry]| {
            let store = encode(edition, list);
            let end = |t| find(&store, &SHARED, t).map(|found| found.end);
            (0..8).map(end).collect::<Vec<_>>()
        };
        let expected = [Err(11), Ok(5), Ok(6), Ok(6), Ok(6), Ok(6), Ok(6), Err(11)];
        for order in orders(&list) {
            assert_eq!(ends(&order), expected);
        }
    }
}

/// Each command leaves a store where another record is taken.
#[test]
fn commands_change_which_record_is_taken() {
    for edition in EDITIONS {
        let list = all_shared(&[[10, 20], [10, 21], [10, 21]]);
        let mut bench = Bench::new(edition, &list[..1]);
        let taken = |bench: &Bench| find(&bench.store, &SHARED, 15);
        assert_eq!(taken(&bench), found(1, 20));
        assert_eq!(bench.add(&list[1..]), [0, 0]);
        assert_eq!(taken(&bench), found(2, 21));
        assert_eq!(bench.delete(&[2]), [0]);
        assert_eq!(taken(&bench), found(2, 21));
        assert_eq!(key(&bench.store, &SHARED, 15), list[2].kmac);
        let longer = k_validity(1, 10, 22);
        assert_eq!(bench.work(kind::UPDATE_KEY_VALIDITIES, &[longer]), [0]);
        assert_eq!(taken(&bench), found(1, 22));
        assert_eq!(bench.replace_peers(1, &[[8; 4]]), [0]);
        assert_eq!(taken(&bench), found(2, 21));
        assert_eq!(bench.delete(&[3]), [0]);
        assert_eq!(taken(&bench), Err(11));
    }
}
