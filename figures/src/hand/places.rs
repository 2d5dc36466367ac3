//! The distance to the nearest place or match in a direction.

use super::bytes::{first_newline, last_newline, matches};

#[derive(Clone, Copy)]
pub enum Direction {
    Left,
    Right,
}

#[derive(Clone, Copy)]
pub enum Place {
    Character,
    Word,
    LineBeginning,
    LineEnding,
    Document,
}

fn blank(b: u8) -> bool {
    b == b' ' || b == b'\n'
}

/// Between a and the byte behind it is a word place; nothing behind it counts as no blank.
fn word(a: u8, b: Option<&u8>) -> bool {
    a == b'\n' || (a == b' ' && !b.is_some_and(|&b| blank(b)))
}

/// Over the text left of the cursor.
pub fn distance_left(place: Place, s: &[u8]) -> Option<usize> {
    let before = s.split_last()?.1;
    let to = match place {
        Place::Character => before.len(),
        Place::Word => (1..s.len()).rev().find(|&p| word(s[p - 1], s.get(p))).unwrap_or(0),
        Place::LineBeginning => last_newline(before).map_or(0, |i| i + 1),
        Place::LineEnding => last_newline(s)?,
        Place::Document => 0,
    };
    Some(s.len() - to)
}

/// Over the text right of the cursor.
pub fn distance_right(place: Place, s: &[u8]) -> Option<usize> {
    let behind = s.split_first()?.1;
    match place {
        Place::Character => Some(1),
        Place::Word => (1..=s.len()).find(|&p| word(s[p - 1], s.get(p))),
        Place::LineBeginning => first_newline(s).map(|i| i + 1),
        Place::LineEnding => Some(first_newline(behind).map_or(s.len(), |i| i + 1)),
        Place::Document => Some(s.len()),
    }
}

/// FIND. The match under the cursor is no answer, so the search begins one byte on.
pub fn find_right(right: &[u8], pattern: &[u8]) -> Option<usize> {
    let behind = right.split_first()?.1;
    if pattern.is_empty() {
        return Some(1);
    }
    Some(1 + matches(behind, pattern).next()?)
}

/// UPFIND. Matches across the cursor are nearest; the others lie in the text left of it.
pub fn find_left(left: &[u8], right: &[u8], pattern: &[u8]) -> Option<usize> {
    if pattern.is_empty() {
        return (!left.is_empty()).then_some(1);
    }
    let across = |&d: &usize| {
        let (front, rest) = pattern.split_at(d);
        left.ends_with(front) && right.starts_with(rest)
    };
    let near = (1..pattern.len().min(left.len() + 1)).find(across);
    near.or_else(|| Some(left.len() - matches(left, pattern).next_back()?))
}
