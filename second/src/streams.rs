//! Bytes as a terminal might send them: short inputs, streams that are mostly ESC and what may follow it, the ways to cut them, and walks
//! whose keys come as bytes.

use crate::core::numbers_of;
use crate::generate::store;
use crate::keyboard::{keys, LETTERS};
use crate::plain::Key;
use crate::random::Random;
use crate::walk::{self, Walk};

const ESC: u8 = 27;

/// Bytes of no key. None of them begins another's.
const REFUSED: [&[u8]; 9] = [b"\x1b\x1b", b"\x1b[3", b"\x1b[\x1b", b"\x1bv", b"\x1bC", b"\x80", b"\n", b"\t", b"\0"];

/// All inputs of 0 to 2 bytes, and ESC `[` with any byte.
pub fn short() -> Vec<Vec<u8>> {
    let mut all = vec![Vec::new()];
    all.extend((0..=255).map(|byte| vec![byte]));
    all.extend((0..=255).flat_map(|first| (0..=255).map(move |second| vec![first, second])));
    all.extend((0..=255).map(|byte| vec![ESC, b'[', byte]));
    all
}

/// None, or ESC and what follows it: here the bytes behind matter.
pub fn begins_longer(input: &[u8]) -> bool {
    input.first().is_none_or(|byte| *byte == ESC)
}

fn byte(random: &mut Random) -> u8 {
    let letter = random.pick(&LETTERS).0;
    let small = random.within(b'a' as usize, b'z' as usize) as u8;
    let high = random.within(128, 255) as u8;
    let any = random.draw() as u8;
    match random.weighted(&[30, 22, 18, 10, 6, 6, 4, 4]) {
        0 => ESC,
        1 => b'[',
        2 => random.pick(b"CDHF"),
        3 => letter,
        4 => random.pick(&[9, 10, 13, 127, 0, 31, 32, 126]),
        5 => small,
        6 => high,
        _ => any,
    }
}

/// A few bytes behind an input.
pub fn tail(random: &mut Random) -> Vec<u8> {
    (0..random.within(1, 6)).map(|_| byte(random)).collect()
}

/// A stream of up to 24 bytes.
pub fn stream(random: &mut Random) -> Vec<u8> {
    let n = if random.percent(80) { random.within(0, 10) } else { random.within(11, 24) };
    (0..n).map(|_| byte(random)).collect()
}

/// The ways in which a stream may arrive: whole, cut at each place, in pieces of one, two and three bytes, with empty pieces between.
pub fn arrivals(stream: &[u8]) -> Vec<Vec<&[u8]>> {
    let mut all = vec![vec![stream]];
    all.extend((0..=stream.len()).map(|at| vec![&stream[..at], &stream[at..]]));
    all.extend((1..=3).map(|length| stream.chunks(length).collect()));
    all.push([&[] as &[u8], &[]].into_iter().chain(stream.chunks(1).flat_map(|byte| [byte, &[]])).collect());
    all
}

/// A walk of keys that terminals can send, and its bytes. Now and then bytes of no key stand between those of two keys.
pub fn sent(random: &mut Random) -> (Walk, Vec<u8>) {
    let t = store(random).min(300);
    let mut walk = walk::walk(random, t);
    let keys = keys();
    let bytes = |key: Key| keys.iter().find(|(_, sent)| numbers_of(*sent) == numbers_of(key)).map(|(bytes, _)| bytes);
    walk.keys.retain(|key| bytes(*key).is_some());
    walk.keys.truncate(120);
    let mut stream = Vec::new();
    for key in &walk.keys {
        if random.percent(5) {
            stream.extend_from_slice(random.pick(&REFUSED));
        }
        stream.extend_from_slice(bytes(*key).expect("all others are gone"));
    }
    (walk, stream)
}

/// Pieces of 0 to 5 bytes.
pub fn pieces<'a>(random: &mut Random, mut stream: &'a [u8]) -> Vec<&'a [u8]> {
    let mut pieces = Vec::new();
    while !stream.is_empty() {
        let (piece, rest) = stream.split_at(random.within(0, stream.len().min(5)));
        pieces.push(piece);
        stream = rest;
    }
    pieces
}
