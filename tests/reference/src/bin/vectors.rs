//! Prints the values that both programs compute, for comparison line by line.
//! Panics where DES differs from a published value.

use reference::authentication::{build, check, mac, session_keys, MAC_LENGTH};
use reference::des::Des;
use reference::published::{tables, Table, Vector};
use reference::{hex, OUTPUT_LENGTH};

const LENGTHS: [usize; 12] = [1, 2, 3, 4, 10, 11, 12, 114, 1018, 1019, 1020, 1023];

fn main() {
    tables().iter().for_each(published);
    annex_b();
    derived_keys();
    units();
    checks();
    damaged();
    builds();
}

/// n bytes, byte i being (seed + 37 i) mod 256.
fn pattern(seed: usize, n: usize) -> Vec<u8> {
    (0..n).map(|i| (seed + 37 * i) as u8).collect()
}

fn pattern_array<const N: usize>(seed: usize) -> [u8; N] {
    std::array::from_fn(|i| (seed + 37 * i) as u8)
}

fn key() -> [u8; 24] {
    pattern_array(1)
}

fn destination() -> [u8; 3] {
    pattern_array(17)
}

/// A number, or H and the number of the refusal.
fn answer(result: Result<usize, u8>) -> String {
    match result {
        Ok(number) => number.to_string(),
        Err(refusal) => format!("H{refusal}"),
    }
}

fn published(table: &Table) {
    println!("{}", table.name);
    for Vector { key, plain, cipher } in &table.vectors {
        let des = Des::new(key);
        let computed = des.encipher(plain);
        assert_eq!(computed, *cipher, "published {}", table.name);
        let back = des.decipher(&computed);
        assert_eq!(back, *plain, "published {}", table.name);
        let columns = [key, plain, &computed, &back].map(|block| hex::encode(block));
        println!("{}", columns.join(" "));
    }
}

/// The steps of 002, Annex B.
fn annex_b() {
    println!("annex b");
    let k1 = Des::new(&hex::decode("01020407080b0d0e"));
    let k2 = Des::new(&hex::decode("10131516191a1c1f"));
    let k3 = Des::new(&hex::decode("20232526292a2c2f"));
    let blocks = ["0001020304050607", "08090a0b0c0d0e0f", "1011121314000000"];
    let mut chained = [0; 8];
    for block in blocks.map(hex::decode::<8>) {
        chained = k1.encipher(&std::array::from_fn(|i| chained[i] ^ block[i]));
        println!("{}", hex::encode(&chained));
    }
    let deciphered = k2.decipher(&chained);
    println!("{}", hex::encode(&deciphered));
    println!("{}", hex::encode(&k3.encipher(&deciphered)));
}

fn derived_keys() {
    println!("session keys");
    for n in 0..=4 {
        derived_key(&pattern(n, 24), n);
    }
    derived_key(&pattern(0, 23), 0);
    derived_key(&pattern(0, 25), 0);
}

fn derived_key(kmac: &[u8], n: usize) {
    match session_keys(kmac, &pattern_array(100 + n), &pattern_array(200 + n)) {
        Ok(keys) => println!("{}", hex::encode(&keys)),
        Err(refusal) => println!("H{refusal}"),
    }
}

fn units() {
    println!("units");
    for n in LENGTHS {
        for direction in [false, true] {
            unit_line(n, direction);
        }
    }
}

/// N D LENGTH FIRST MAC BACK.
fn unit_line(n: usize, direction: bool) {
    let unit = built(&pattern(n % 256, n), direction);
    let first = hex::encode(&unit[..1]);
    let tail = hex::encode(&unit[unit.len() - MAC_LENGTH..]);
    let back = answer(check(&unit, &key(), &destination(), direction));
    let direction = u8::from(direction);
    println!("{n} {direction} {} {first} {tail} {back}", unit.len());
}

/// The unit of `user` alone. Panics where `build` refuses.
fn built(user: &[u8], direction: bool) -> Vec<u8> {
    let mut out = vec![0; OUTPUT_LENGTH];
    let length = build(&key(), &destination(), direction, user, &mut out);
    out.truncate(length.expect("the unit can be built"));
    out
}

/// The unit that the checks start from, of 19 bytes.
fn sample() -> Vec<u8> {
    built(&pattern(5, 10), true)
}

/// A message with the right MAC, whatever its first byte and length.
fn sealed(message: &[u8]) -> Vec<u8> {
    [message, &mac(&key(), &destination(), message)].concat()
}

/// The unit with the lowest bit of one byte changed.
fn flipped(mut unit: Vec<u8>, at: usize) -> Vec<u8> {
    unit[at] ^= 1;
    unit
}

fn checks() {
    println!("checks");
    let [a, b, c] = destination();
    let elsewhere = [a, b, c.wrapping_add(1)];
    check_line(&sample(), &key(), &destination(), true);
    check_line(&sample(), &key(), &destination(), false);
    check_line(&sample(), &key(), &elsewhere, true);
    check_line(&sample(), &pattern(2, 24), &destination(), true);
    check_line(&flipped(sample(), 18), &key(), &destination(), false);
    check_line(&sample()[..8], &key(), &destination(), true);
    check_line(&sealed(&[0x0a]), &key(), &destination(), false);
    check_line(&flipped(sealed(&[0x0a]), 8), &key(), &destination(), false);
    check_line(&[0; 1033], &key(), &destination(), false);
    check_line(&sealed(&[0x0c, 7, 7]), &key(), &destination(), false);
    check_line(&sealed(&[0x2a, 7, 7]), &key(), &destination(), false);
    check_line(&sealed(&[0x0a, 7, 7]), &key(), &destination(), false);
    check_line(&sample(), &pattern(1, 23), &destination(), true);
    check_line(&sample()[..8], &pattern(1, 25), &destination(), true);
}

fn check_line(unit: &[u8], key: &[u8], destination: &[u8; 3], direction: bool) {
    println!("{}", answer(check(unit, key, destination, direction)));
}

fn damaged() {
    println!("damaged");
    let check_flipped = |at| check(&flipped(sample(), at), &key(), &destination(), true);
    let answers: Vec<String> = (0..19).map(|at| answer(check_flipped(at))).collect();
    println!("{}", answers.join(" "));
}

fn builds() {
    println!("builds");
    build_line(&key(), &pattern(3, 2), 1031);
    build_line(&key(), &[], 1031);
    build_line(&key(), &[], 1032);
    build_line(&key(), &pattern(3, 1024), 1032);
    build_line(&key(), &pattern(3, 2), 1033);
    build_line(&pattern(1, 23), &[], 1031);
}

fn build_line(key: &[u8], user: &[u8], room: usize) {
    let mut out = vec![0; room];
    println!(
        "{}",
        answer(build(key, &destination(), false, user, &mut out))
    );
}
