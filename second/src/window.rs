//! The window (01, "The window"; 001, sections 2 and 3): virtual text, lines, visibility, policy, named rows.

use crate::plain::{Doc, Editor, Mode, NEWLINE, SPACE};

/// The window offsets r and c.
#[derive(Clone, Copy, Debug, Default, PartialEq, Eq)]
pub struct Offsets {
    pub r: usize,
    pub c: usize,
}

/// (l, r) in MAIN; in QUOTED the quotation stands on a line of its own, begun by `>`.
pub fn virtual_text(editor: &Editor) -> Doc {
    let mut text = editor.main.text.clone();
    if editor.mode == Mode::Quoted {
        let quotation = &editor.quoted.text;
        text.l.extend([NEWLINE, b'>']);
        text.l.extend(&quotation.l);
        text.r.push_front(NEWLINE);
        quotation.r.iter().rev().for_each(|byte| text.r.push_front(*byte));
    }
    text
}

/// Row 1 + newlines to the left, and column: bytes since the last newline.
pub fn cursor(text: &Doc) -> (usize, usize) {
    let lines: Vec<&[u8]> = text.l.split(|byte| *byte == NEWLINE).collect();
    (lines.len(), lines[lines.len() - 1].len())
}

/// r < row <= r + H and c <= column <= c + W, for any numbers r and c.
pub fn visible(text: &Doc, at: Offsets, h: usize, w: usize) -> bool {
    let (row, column) = cursor(text);
    let (row, column) = (row as u128, column as u128);
    let (r, c) = (at.r as u128, at.c as u128);
    r < row && row <= r + h as u128 && c <= column && column <= c + w as u128
}

/// Each offset moves as little as shows the cursor.
pub fn policy(text: &Doc, at: Offsets, h: usize, w: usize) -> Offsets {
    let (row, column) = cursor(text);
    let r = if row <= at.r {
        row - 1
    } else if row > at.r + h {
        row - h
    } else {
        at.r
    };
    let c = if column < at.c {
        column
    } else if column > at.c + w {
        column - w
    } else {
        at.c
    };
    Offsets { r, c }
}

/// Row i, column j, counted from 1, shows byte c + j of line r + i, and a space where there is none.
pub fn window(text: &Doc, at: Offsets, h: usize, w: usize) -> Vec<u8> {
    let content = text.content();
    let lines: Vec<&[u8]> = content.split(|byte| *byte == NEWLINE).collect();
    let mut screen = Vec::with_capacity(h * w);
    for i in 1..=h {
        for j in 1..=w {
            let byte = lines.get(at.r + i - 1).and_then(|line| line.get(at.c + j - 1));
            screen.push(*byte.unwrap_or(&SPACE));
        }
    }
    screen
}

/// The least and greatest row at which two screens of W columns differ, from 1; 0 and 0 if none.
pub fn named_rows(entry: &[u8], exit: &[u8], w: usize) -> (usize, usize) {
    let rows = entry.chunks(w).zip(exit.chunks(w)).enumerate();
    let differing: Vec<usize> = rows.filter(|(_, (a, b))| a != b).map(|(i, _)| i + 1).collect();
    (*differing.first().unwrap_or(&0), *differing.last().unwrap_or(&0))
}
