//! Damage to the record, to a byte of a store, to a store's length, to the numbers of a key.

use crate::bytes::{Record, Stores, LARGEST_T, NO_MARK};
use crate::convert::OLD_SIDE;
use crate::core::Numbers;
use crate::plain::{Doc, QUARTER};
use crate::random::Random;
use crate::window::cursor;

/// 2^32 and a little: what is left of it in half a word looks sound. The last is one more than a quarter has.
pub const HUGE: [usize; 10] =
    [usize::MAX, usize::MAX - 1, 1 << 63, (1 << 63) - 1, 1 << 32, (1 << 32) + 1, 65_536, 65_537, 257, QUARTER + 1];

pub fn record(random: &mut Random, record: &mut Record, stores: &mut Stores, seen: &Doc) {
    let (row, column) = cursor(seen);
    let (h, w) = (record.rows, record.columns);
    let fields = record.fields();
    let field = random.below(19);
    // Where a pair of lengths begins: those of the document, the quotation, the four pairs.
    let first = random.pick(&[0, 2, 4, 6, 8, 16]);
    match random.below(11) {
        0 => *fields[field] = fields[field].wrapping_add(1),
        1 => *fields[field] = fields[field].wrapping_sub(1),
        2 => *fields[field] = random.pick(&HUGE),
        3 => {
            let other = random.below(19);
            let value = *fields[other];
            *fields[other] = std::mem::replace(fields[field], value);
        }
        // Two lengths whose sum is small again once it has passed the largest number.
        4 => *fields[first] = random.within(0, 3).wrapping_sub(*fields[first + 1]),
        // A byte goes from one half to the other.
        5 => {
            let (from, to) = if random.percent(50) { (first, first + 1) } else { (first + 1, first) };
            if *fields[from] > 0 {
                *fields[from] -= 1;
                *fields[to] = fields[to].wrapping_add(1);
            }
        }
        // r and c at the last values that show the cursor, and one beyond.
        6 => *fields[12] = random.pick(&[row, row - 1, row.wrapping_sub(h), row.wrapping_sub(h).wrapping_sub(1), usize::MAX]),
        7 => {
            *fields[13] =
                random.pick(&[column, column + 1, column.wrapping_sub(w), column.wrapping_sub(w).wrapping_sub(1), usize::MAX])
        }
        8 => *fields[11] = random.pick(&[0, 1, 2, 3, 256, usize::MAX]),
        // The mark at the document's end, one beyond it, far off, or next to the number that is none.
        9 => {
            let (end, huge) = (fields[0].wrapping_add(*fields[1]), random.pick(&HUGE));
            *fields[18] = random.pick(&[end, end.wrapping_add(1), end.wrapping_add(1), huge, NO_MARK - 1, NO_MARK]);
        }
        // Another H or W, with a screen that would be right for it.
        _ => {
            *fields[14 + random.below(2)] = random.pick(&[0, 1, 2, 64, 65, 256, 257]);
            if record.rows <= 65 && record.columns <= 257 && random.percent(70) {
                stores.screen = vec![32; record.rows * record.columns];
            }
        }
    }
}

/// One byte changed, most often where a text ends, or a quarter of this length.
pub fn byte(random: &mut Random, record: &Record, stores: &mut Stores, quarter: usize) {
    let t = stores.text.len();
    let r = record;
    let (store, edges): (&mut Vec<u8>, Vec<usize>) = match random.below(4) {
        0 => (&mut stores.text, vec![0, r.l, t.wrapping_sub(r.r), t.wrapping_sub(1)]),
        1 => (&mut stores.recall, vec![0, r.rl.wrapping_add(r.rr), t.wrapping_sub(1)]),
        2 => (&mut stores.held, vec![0, r.held_left.wrapping_add(r.held_right), t.wrapping_sub(1)]),
        _ => {
            let [_, second, third, fourth, end] = [0, 1, 2, 3, 4].map(|i| i * quarter);
            let pair = |from: usize, l: usize, r: usize| from.wrapping_add(l).wrapping_add(r);
            let edges = [0, r.ql, second.wrapping_sub(r.qr), second - 1, second, pair(second, r.qrl, r.qrr), third - 1, third];
            let others = [pair(third, r.pl, 0), fourth - 1, fourth, pair(fourth, r.xl, r.xr), end - 1];
            (&mut stores.side, [&edges[..], &others[..]].concat())
        }
    };
    let edge = random.pick(&edges).wrapping_sub(random.below(2));
    if store.is_empty() {
        return;
    }
    let at = if edge < store.len() && random.percent(70) { edge } else { random.below(store.len()) };
    store[at] = random.pick(&[0, 0, 1, 9, 10, 11, 31, 32, b'a', 126, 127, 128, 138, 255]);
}

pub fn length(random: &mut Random, stores: &mut Stores) {
    let Stores { text, recall, held, side, screen } = stores;
    match random.below(7) {
        0 => {
            [text, recall, held, side, screen][random.below(5)].pop();
        }
        1 => [text, recall, held, side, screen][random.below(5)].push(random.pick(&[0, b'a'])),
        2 => [text, recall, held, side, screen][random.below(5)].clear(),
        // The stores of length T, one byte longer or shorter at the back: a session no more, but for an empty right text. Now and then one
        // or two of them stay.
        3 => [text, recall, held][random.below(4).saturating_sub(1)..].iter_mut().for_each(|store| store.push(0)),
        4 => [held, recall, text][random.below(4).saturating_sub(1)..].iter_mut().for_each(|store| {
            store.pop();
        }),
        // A side store as long as it was before M-109, or nearly.
        5 => side.resize(random.pick(&[OLD_SIDE, OLD_SIDE, OLD_SIDE - 1, OLD_SIDE + 1]), 0),
        _ => {
            if random.percent(3) {
                let t = random.pick(&[LARGEST_T, LARGEST_T + 1]);
                [text, recall, held].into_iter().for_each(|store| store.resize(t, 0));
            }
        }
    }
}

/// Numbers that name no key, and numbers in places that are not looked at.
pub fn key(random: &mut Random, numbers: &mut Numbers) {
    let number = random.pick(&[0, 1, 2, 3, 4, 5, 6, 7, 8, 9, 10, 11, 97, 256, 256 + 97, (1 << 32) + 1, usize::MAX]);
    match random.below(4) {
        0 => numbers.kind = number,
        1 => numbers.a = number,
        2 => numbers.b = number,
        _ => numbers.c = number,
    }
}
