//! The bytes for a terminal, written by hand: the same tests and the same bytes.

use crate::chidukwore::{Answer, Painting};

/// Not inlined, as the proved routine is none that could be.
#[inline(never)]
pub fn paint(h: usize, w: usize, answer: Answer, screen: &[u8], out: &mut [u8]) -> Painting {
    let Answer { first, last, row, column, .. } = answer;
    let refused = |code, place| Painting { code, place, count: 0 };
    let sizes = (1..=64).contains(&h) && (1..=256).contains(&w) && screen.len() == h * w;
    let rows = (first == 0 && last == 0) || (1 <= first && first <= last && last <= h);
    if !(sizes && rows && (1..=h).contains(&row) && column <= w) {
        return refused(1, 0);
    }
    let printed = |b: u8| (32..=126).contains(&b);
    if !screen.iter().fold(true, |ok, &b| ok & printed(b)) {
        return refused(3, screen.iter().position(|&b| !printed(b)).unwrap());
    }
    let column = (column + 1).min(w);
    let named = if first == 0 { 0..0 } else { first - 1..last };
    let count = named.clone().map(|i| place_size(i + 1, 1) + w).sum::<usize>() + place_size(row, column);
    if out.len() < count {
        return refused(7, 0);
    }
    let mut at = 0;
    for i in named {
        at = place(i + 1, 1, out, at);
        out[at..at + w].copy_from_slice(&screen[i * w..i * w + w]);
        at += w;
    }
    place(row, column, out, at);
    Painting { code: 0, place: 0, count }
}

fn digits(n: usize) -> usize {
    1 + usize::from(n >= 10) + usize::from(n >= 100)
}

fn place_size(row: usize, column: usize) -> usize {
    4 + digits(row) + digits(column)
}

fn place(row: usize, column: usize, out: &mut [u8], at: usize) -> usize {
    out[at..at + 2].copy_from_slice(b"\x1b[");
    let at = number(row, out, at + 2);
    out[at] = b';';
    let at = number(column, out, at + 1);
    out[at] = b'H';
    at + 1
}

fn number(mut n: usize, out: &mut [u8], at: usize) -> usize {
    let end = at + digits(n);
    for place in (at..end).rev() {
        out[place] = b'0' + (n % 10) as u8;
        n /= 10;
    }
    end
}
