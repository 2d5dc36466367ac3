//! The bytes for real terminals (02, M-100; readings, C1 to C5): which they are, and the routine that writes them into a lent buffer.

use crate::bytes::{LARGEST_H, LARGEST_W};
use crate::core::{SIZE, TEXT};

pub const ROOM: usize = 7;

/// What the routine is asked, besides the bytes it is lent: the screen's size, the named rows and the cursor.
#[derive(Clone, Copy, Debug, Default, PartialEq, Eq)]
pub struct Ask {
    pub h: usize,
    pub w: usize,
    pub first: usize,
    pub last: usize,
    pub row: usize,
    pub column: usize,
}

#[repr(C)]
#[derive(Clone, Copy, Debug, Default, PartialEq, Eq)]
pub struct Painting {
    pub code: usize,
    pub place: usize,
    pub count: usize,
}

/// SIZE, TEXT, ROOM, or the bytes at the front of the buffer.
pub fn paint(ask: Ask, screen: &[u8], buffer: &mut [u8]) -> Painting {
    // "Nothing is written then": the count is 0 too (C4).
    let refused = |code, place| Painting { code, place, count: 0 };
    if !on_screen(ask, screen) {
        return refused(SIZE, 0);
    }
    // "A screen byte" is any of them, also one in a row that is not named (C1).
    if let Some(place) = screen.iter().position(|byte| !(32..=126).contains(byte)) {
        return refused(TEXT, place);
    }
    let bytes = bytes(ask, screen);
    if bytes.len() > buffer.len() {
        return refused(ROOM, 0);
    }
    // The writer and its fill mark are the core's matter: here all bytes are there before the first is written. Those behind stay.
    for (lent, byte) in buffer.iter_mut().zip(&bytes) {
        *lent = *byte;
    }
    Painting { code: 0, place: 0, count: bytes.len() }
}

/// SIZE does not apply.
pub fn on_screen(ask: Ask, screen: &[u8]) -> bool {
    let Ask { h, w, first, last, row, column } = ask;
    let sizes = (1..=LARGEST_H).contains(&h) && (1..=LARGEST_W).contains(&w) && screen.len() == h * w;
    // "0 and 0 name none", but one 0 alone is no row (C2).
    let none = first == 0 && last == 0;
    let in_order = 1 <= first && first <= last && last <= h;
    // Column W, behind the last cell, is a cursor's place too (C3).
    let cursor = 1 <= row && row <= h && column <= w;
    sizes && (none || in_order) && cursor
}

/// The bytes for a terminal, where SIZE does not apply.
pub fn bytes(ask: Ask, screen: &[u8]) -> Vec<u8> {
    let Ask { h, w, first, last, row, column } = ask;
    let mut bytes = Vec::new();
    for named in (1..=h).filter(|row| first <= *row && *row <= last) {
        bytes.extend(go_to(named, 1));
        bytes.extend(&screen[(named - 1) * w..named * w]);
    }
    // "Its column plus 1, or W where that would be more."
    bytes.extend(go_to(row, (column + 1).min(w)));
    bytes
}

/// ESC `[` row `;` column `H`; Rust writes numbers in decimal without leading zeros.
fn go_to(row: usize, column: usize) -> Vec<u8> {
    format!("\x1b[{row};{column}H").into_bytes()
}
