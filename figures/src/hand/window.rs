//! The window: the cursor of the virtual text, the offsets, and the screen painted with its named rows.

use super::bytes::{first_newline, last_newline, newlines};
use super::keys::QUARTER;
use crate::chidukwore::Record;

/// A place in the virtual text: rows from 1, columns from 0.
pub struct Spot {
    pub row: usize,
    pub column: usize,
}

fn since_newline(s: &[u8]) -> Option<usize> {
    Some(s.len() - last_newline(s)? - 1)
}

pub fn cursor(record: &Record, text: &[u8], side: &[u8]) -> Spot {
    let left = &text[..record.l];
    if record.mode == 0 {
        return Spot { row: 1 + newlines(left), column: since_newline(left).unwrap_or(left.len()) };
    }
    let quoted = &side[..record.ql];
    Spot { row: 2 + newlines(left) + newlines(quoted), column: since_newline(quoted).unwrap_or(1 + quoted.len()) }
}

/// Offsets may be any number, so none is added to.
pub fn visible(record: &Record, spot: &Spot) -> bool {
    let within = |at: usize, offset: usize, size: usize| at >= offset && at - offset <= size;
    spot.row > record.top && within(spot.row, record.top, record.rows) && within(spot.column, record.left, record.columns)
}

/// The offsets follow the cursor.
pub fn follow(record: &mut Record, spot: &Spot) {
    record.top = record.top.min(spot.row - 1).max(spot.row.saturating_sub(record.rows));
    record.left = record.left.min(spot.column).max(spot.column.saturating_sub(record.columns));
}

/// The pieces of the virtual text, and how many of them lie left of the cursor.
fn virtual_text<'a>(record: &Record, text: &'a [u8], side: &'a [u8]) -> ([&'a [u8]; 6], usize) {
    let (left, right) = (&text[..record.l], &text[text.len() - record.r..]);
    if record.mode == 0 {
        return ([left, right, &[], &[], &[], &[]], 1);
    }
    ([left, b"\n>", &side[..record.ql], &side[QUARTER - record.qr..QUARTER], b"\n", right], 3)
}

/// Piece and place where the line starts that has k newlines between it and the cursor.
fn line_start(left: &[&[u8]], mut k: usize) -> (usize, usize) {
    for (i, piece) in left.iter().enumerate().rev() {
        let mut end = piece.len();
        while let Some(newline) = last_newline(&piece[..end]) {
            if k == 0 {
                return (i, newline + 1);
            }
            k -= 1;
            end = newline;
        }
    }
    (0, 0)
}

/// Paints the window and answers the named rows. The cursor is visible, so the first line of the window is at most H lines above it.
pub fn paint(record: &Record, spot: &Spot, text: &[u8], side: &[u8], screen: &mut [u8]) -> (usize, usize) {
    let (pieces, left) = virtual_text(record, text, side);
    let (piece, place) = line_start(&pieces[..left], spot.row - 1 - record.top);
    let mut rest = &pieces[piece][place..];
    let mut others = pieces[piece + 1..].iter();
    let (mut first, mut last) = (0, 0);
    for (i, cells) in screen.chunks_exact_mut(record.columns).enumerate() {
        let mut row = Row { cells, left: record.left, changed: false };
        loop {
            if let Some(end) = first_newline(rest) {
                row.put(&rest[..end]);
                rest = &rest[end + 1..];
                break;
            }
            row.put(rest);
            rest = &[];
            let Some(next) = others.next() else { break };
            rest = next;
        }
        if row.ended() {
            first = if first == 0 { i + 1 } else { first };
            last = i + 1;
        }
    }
    (first, last)
}

const BLANKS: [u8; 256] = [b' '; 256];

/// The cells of a row that are still to be painted, and the bytes of its line that still lie left of them.
struct Row<'a> {
    cells: &'a mut [u8],
    left: usize,
    changed: bool,
}

impl Row<'_> {
    fn put(&mut self, run: &[u8]) {
        let hidden = run.len().min(self.left);
        self.left -= hidden;
        let shown = (run.len() - hidden).min(self.cells.len());
        let (cells, behind) = std::mem::take(&mut self.cells).split_at_mut(shown);
        let run = &run[hidden..hidden + shown];
        if cells != run {
            cells.copy_from_slice(run);
            self.changed = true;
        }
        self.cells = behind;
    }

    /// Blanks to the right edge; answers whether the row has changed.
    fn ended(self) -> bool {
        let blanks = &BLANKS[..self.cells.len()];
        if self.cells != blanks {
            self.cells.copy_from_slice(blanks);
            return true;
        }
        self.changed
    }
}
