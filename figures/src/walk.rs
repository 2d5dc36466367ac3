//! Random walks that both cores go, compared in answer, record and every byte of the stores after each key.

use crate::chidukwore::{insert, Key, Record, Reply, CUT, FIND, MARK, NEWLINE, PASTE, QUOTE, RECALL, REPLACE, SIDE, TAB, UPFIND};
use crate::random::Random;
use crate::stores::Stores;
use crate::{hand, proved};

/// How the calls of the walks were answered: by code, and the accepted ones with the bell.
#[derive(Default)]
pub struct Counts {
    pub codes: [u64; 9],
    pub bells: u64,
}

/// Goes so many walks of 200 keys each.
pub fn compare(walks: u64) -> Counts {
    let mut counts = Counts::default();
    for seed in 0..walks {
        walk(&mut Random::new(seed), &mut counts);
    }
    counts
}

fn walk(random: &mut Random, counts: &mut Counts) {
    let (t, lines): (_, fn(&mut Random, usize) -> Vec<u8>) = match random.below(6) {
        0 => (1 + random.below(16), short_lines),
        1 | 2 => (1 + random.below(600), short_lines),
        3 => (1 + random.below(5_000), short_lines),
        _ => (1_100 + random.below(4_000), long_lines),
    };
    let (rows, columns) = random.one(&[(8, 16), (64, 256)]);
    let (h, w) = (1 + random.below(rows), 1 + random.below(columns));
    let document = lines(random, t);
    let (mut record, mut stores) = proved::open(&document, t, h, w);
    for _ in 0..200 {
        let key = any_key(random);
        if random.once_in(4) {
            let mut damaged = stores.clone();
            let n = damage(random, record, &mut damaged);
            both(n, key, &mut damaged, counts);
        }
        record = both(record, key, &mut stores, counts).record;
    }
}

/// Presses the key on both cores and keeps the outcome, which must be one.
fn both(record: Record, key: Key, stores: &mut Stores, counts: &mut Counts) -> Reply {
    let mut other = stores.clone();
    let reply = proved::key(record, key, stores);
    let by_hand = hand::key(record, key, other.lent());
    assert_eq!(reply, by_hand, "answers and records are equal after {key:?} on {record:?}");
    assert!(*stores == other, "stores are equal after {key:?} on {record:?}");
    counts.codes[reply.answer.code] += 1;
    counts.bells += reply.answer.bell as u64;
    reply
}

/// A text of at most t bytes with lines of a few letters: one that is too long does not come up.
fn short_lines(random: &mut Random, t: usize) -> Vec<u8> {
    (0..random.below(t + 1)).map(|_| letter(random)).collect()
}

/// One with lines about as long as a line may be, and empty and short ones between them: joined or typed on they soon are too long.
fn long_lines(random: &mut Random, t: usize) -> Vec<u8> {
    let mut text = Vec::new();
    while text.len() < t && !random.once_in(8) {
        let n = random.one(&[0, 1, 8, 511, 512, 513, 1_016, 1_023, 1_024, 1_024, 1_024]);
        text.extend((0..n).map(|_| random.one(b"aaab ")));
        text.push(b'\n');
    }
    text.truncate(t);
    text
}

/// Few letters, so that patterns are found.
fn letter(random: &mut Random) -> u8 {
    random.one(b"aaab  \n")
}

fn any_key(random: &mut Random) -> Key {
    match random.below(29) {
        0..=6 => insert(letter(random)),
        7 => insert(random.below(256) as u8),
        8..=12 => Key(1, random.below(2), random.below(2), random.below(5)),
        13 => RECALL,
        14 | 15 => QUOTE,
        16 => FIND,
        17 => UPFIND,
        18 => REPLACE,
        19 | 20 => MARK,
        21 => CUT,
        22 | 23 => PASTE,
        24 | 25 => NEWLINE,
        26 | 27 => TAB,
        _ => Key(random.below(13), random.below(300), random.below(3), random.below(7)),
    }
}

/// Changes a number of the record, a byte of a store or the length of one, cuts recall texts and held text in two, puts the mark at the
/// document's end or one behind it, or joins two lines of the text.
fn damage(random: &mut Random, mut n: Record, stores: &mut Stores) -> Record {
    let Stores { text, recall, held, side, screen } = stores;
    match random.below(9) {
        0..=2 => {
            let m = &mut n;
            let numbers = [&mut m.l, &mut m.r, &mut m.ql, &mut m.qr, &mut m.rl, &mut m.rr, &mut m.qrl, &mut m.qrr];
            let others = [&mut m.xl, &mut m.xr, &mut m.pl, &mut m.mode, &mut m.top, &mut m.left, &mut m.rows, &mut m.columns];
            let last = [&mut m.held_left, &mut m.held_right, &mut m.mark];
            let number = numbers.into_iter().chain(others).chain(last).nth(random.below(19)).unwrap();
            *number = number.wrapping_add(random.one(&[1, 1, 1, usize::MAX, 1 << 63]));
        }
        3 => {
            let store = [text, recall, held].into_iter().nth(random.below(3)).unwrap();
            let at = random.below(store.len());
            store[at] = random.one(&[0, 9, 31, 32, 126, 127, 255]);
        }
        4 => {
            let cut = |x: usize, y: usize| if x > 1 { (x - 1, y + 1) } else { (x, y) };
            (n.rl, n.rr) = cut(n.rl, n.rr);
            (n.qrl, n.qrr) = cut(n.qrl, n.qrr);
            (n.held_left, n.held_right) = cut(n.held_left, n.held_right);
        }
        5 => side[random.below(SIDE)] = random.one(&[0, 9, 10, 97, 127]),
        6 => n.mark = n.l + n.r + random.below(2),
        7 => {
            let newline = text.iter_mut().filter(|b| **b == b'\n').nth(random.below(4));
            newline.map(|b| *b = b'a');
        }
        _ => [text, recall, held, side, screen].into_iter().nth(random.below(5)).unwrap().push(0),
    }
    n
}
