//! Indented lines (02, M-105; readings, C23 to C26): what NEWLINE and TAB insert, in the document or, in QUOTED, in the quotation's own
//! text. The `>` of a quotation's line is no byte of that text.

use crate::plain::{Doc, NEWLINE, SPACE};

/// TAB goes to columns that are multiples of this.
pub const TAB_WIDTH: usize = 8;

/// The current line, left of the cursor.
fn line_so_far(text: &Doc) -> &[u8] {
    text.l.split(|byte| *byte == NEWLINE).next_back().unwrap_or(&[])
}

/// "A newline and then as many spaces as the current line has leading spaces left of the cursor."
pub fn newline(text: &Doc) -> Vec<u8> {
    let mut bytes = vec![NEWLINE];
    for byte in line_so_far(text) {
        if *byte != SPACE {
            break;
        }
        bytes.push(SPACE);
    }
    bytes
}

/// "Spaces up to the next column that is a multiple of eight, at least one."
pub fn tab(text: &Doc) -> Vec<u8> {
    let column = line_so_far(text).len();
    let mut bytes = vec![SPACE];
    while (column + bytes.len()) % TAB_WIDTH != 0 {
        bytes.push(SPACE);
    }
    bytes
}
