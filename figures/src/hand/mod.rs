//! The key call written by hand: the same tests and the same results as the proved core's, in idiomatic, safe and fast Rust. Nothing
//! is kept from call to call, since a host may hand in anything. It shares no code with second/, which is slow on purpose.

mod bytes;
mod keys;
mod places;
pub mod terminal;
mod texts;
mod window;

use crate::chidukwore::{Answer, Key, Record, Reply, Stores, NO_MARK};
use bytes::{all_allowed, all_free, current_line, lines_fit};
use keys::{press, sound_key, Refusal, Went, LONGEST_LINE, QUARTER};
use window::{cursor, follow, paint, visible};

const SIZE: usize = 1;
const SESSION: usize = 4;
const KEY: usize = 5;
const FULL: usize = 6;
const LINE: usize = 8;

/// Presses a key. Not inlined, as the proved core's call is none that could be.
#[inline(never)]
pub fn key(record: Record, key: Key, lent: Stores) -> Reply {
    let refused = |code| Reply { answer: Answer { code, ..Answer::default() }, record };
    if !sized(&record, &lent) {
        return refused(SIZE);
    }
    if !is_session(&record, &lent) {
        return refused(SESSION);
    }
    let Some(key) = sound_key(key, record.mode) else {
        return refused(KEY);
    };
    let mut now = record;
    let Stores { text, recall, held, side, screen } = lent;
    let Went { steps, lines, bell } = match press(&mut now, key, text, recall, held, side) {
        Ok(went) => went,
        Err(Refusal::Full) => return refused(FULL),
        Err(Refusal::Line) => return refused(LINE),
    };
    let spot = cursor(&now, text, side);
    follow(&mut now, &spot);
    let (first, last) = paint(&now, &spot, text, side, screen);
    let (row, column) = (spot.row - now.top, spot.column - now.left);
    let answer = Answer { code: 0, place: 0, steps, lines, bell: bell.into(), first, last, row, column };
    Reply { answer, record: now }
}

fn sized(record: &Record, Stores { text, recall, held, side, screen }: &Stores) -> bool {
    (1..=64).contains(&record.rows)
        && (1..=256).contains(&record.columns)
        && (1..=65_536).contains(&text.len())
        && recall.len() == text.len()
        && held.len() == text.len()
        && side.len() == 4 * QUARTER
        && screen.len() == record.rows * record.columns
}

/// The first a and the last b bytes are allowed, and those between are free.
fn sound(store: &[u8], a: usize, b: usize) -> bool {
    let Some(end) = store.len().checked_sub(b).filter(|&end| a <= end) else {
        return false;
    };
    all_allowed(&store[..a]) && all_free(&store[a..end]) && all_allowed(&store[end..])
}

fn sound_pair(store: &[u8], x: usize, y: usize) -> bool {
    x.checked_add(y).is_some_and(|n| sound(store, n, 0))
}

/// No line of the document is longer than the reader takes, the one at the cursor on both sides of the gap.
fn readable(text: &[u8], l: usize, r: usize) -> bool {
    let (left, right) = (&text[..l], &text[text.len() - r..]);
    lines_fit(LONGEST_LINE, 0, left) && lines_fit(LONGEST_LINE, current_line(left).len(), right)
}

/// Lines and mark are tested once l + r is known to be a length.
fn is_session(n: &Record, Stores { text, recall, held, side, .. }: &Stores) -> bool {
    let quarter = |i: usize| &side[i * QUARTER..(i + 1) * QUARTER];
    n.mode <= 1
        && (n.mode == 1 || [n.ql, n.qr, n.qrl, n.qrr] == [0; 4])
        && (n.rl == 0 || n.rr == 0)
        && (n.qrl == 0 || n.qrr == 0)
        && (n.held_left == 0 || n.held_right == 0)
        && sound(text, n.l, n.r)
        && readable(text, n.l, n.r)
        && (n.mark == NO_MARK || n.mark <= n.l + n.r)
        && sound_pair(recall, n.rl, n.rr)
        && sound_pair(held, n.held_left, n.held_right)
        && sound(quarter(0), n.ql, n.qr)
        && sound_pair(quarter(1), n.qrl, n.qrr)
        && sound_pair(quarter(2), n.pl, 0)
        && sound_pair(quarter(3), n.xl, n.xr)
        && visible(n, &cursor(n, text, side))
}
