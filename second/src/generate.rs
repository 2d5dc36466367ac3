//! Sizes, texts and function keys, with the hard corners weighted: what is full or nearly so, what is small, what repeats.

use crate::plain::{Action, Direction, Key, Place, NEWLINE, SPACE};
use crate::random::Random;
use crate::reader::LONGEST_LINE;

pub const DIRECTIONS: [Direction; 2] = [Direction::Left, Direction::Right];
pub const PLACES: [Place; 5] = [Place::Character, Place::Word, Place::LineBeginning, Place::LineEnding, Place::Document];
/// Bytes on both sides of what is allowed.
pub const NOT_ALLOWED: [u8; 9] = [0, 1, 9, 11, 13, 31, 127, 128, 255];
/// Few letters, so that patterns match and overlap, and blanks and newlines stand side by side.
const LETTERS: [&[u8]; 8] = [b"a", b"ab", b"ab ", b"a \n", b"ab \n", b" \n", b"\n", b"FOBAZ \nabcxyz>!~0189"];

pub fn letters(random: &mut Random) -> &'static [u8] {
    LETTERS[random.weighted(&[4, 5, 4, 5, 6, 2, 1, 6])]
}

/// n bytes of these letters, often repeated, now and then any that is allowed.
pub fn text(random: &mut Random, letters: &[u8], n: usize) -> Vec<u8> {
    let mut text: Vec<u8> = Vec::with_capacity(n);
    for i in 0..n {
        let byte = match random.below(100) {
            0 => random.within(32, 126) as u8,
            1..=20 if i > 0 => text[i - 1],
            _ => random.pick(letters),
        };
        text.push(byte);
    }
    text
}

/// n bytes of a document or quotation: such a text, or one whose lines are indented. The reader takes its lines.
pub fn deck(random: &mut Random, letters: &[u8], n: usize) -> Vec<u8> {
    if random.percent(65) {
        let text = text(random, letters, n);
        return broken(random, text);
    }
    let mut deck = Vec::with_capacity(n);
    while deck.len() < n {
        let (spaces, more) = (random.pick(&[0, 1, 2, 3, 4, 7, 8, 9, 16]), random.below(10));
        deck.resize(deck.len() + spaces, SPACE);
        deck.extend(text(random, letters, more));
        deck.push(NEWLINE);
    }
    deck.truncate(n);
    deck
}

/// Newlines in lines that are longer than the reader takes, often just where it stops.
fn broken(random: &mut Random, mut text: Vec<u8>) -> Vec<u8> {
    let longest = random.pick(&[LONGEST_LINE, LONGEST_LINE, LONGEST_LINE - 1, 300]);
    let mut column = 0;
    for byte in &mut text {
        if column == longest {
            *byte = NEWLINE;
        }
        column = if *byte == NEWLINE { 0 } else { column + 1 };
    }
    text
}

/// T up to 4,096.
pub fn store(random: &mut Random) -> usize {
    match random.weighted(&[8, 22, 20, 25, 15, 6, 3, 1]) {
        0 => 1,
        1 => random.within(2, 8),
        2 => 16,
        3 => random.within(9, 64),
        4 => random.within(65, 300),
        5 => random.within(301, 1_000),
        6 => random.within(1_001, 4_095),
        _ => 4_096,
    }
}

pub fn rows(random: &mut Random) -> usize {
    match random.weighted(&[25, 25, 30, 18, 2]) {
        0 => 1,
        1 => 2,
        2 => random.within(3, 5),
        3 => random.within(6, 24),
        _ => random.within(60, 64),
    }
}

pub fn columns(random: &mut Random) -> usize {
    match random.weighted(&[20, 30, 35, 13, 2]) {
        0 => 1,
        1 => random.within(2, 4),
        2 => random.within(5, 16),
        3 => random.within(17, 80),
        _ => random.within(250, 256),
    }
}

/// How long a text is, for a room: most often full or nearly so.
pub fn length(random: &mut Random, room: usize) -> usize {
    match random.weighted(&[25, 12, 18, 10, 35]) {
        0 => room,
        1 => room.saturating_sub(1),
        2 => room.saturating_sub(random.within(2, 9)),
        3 => 0,
        _ => random.within(0, room),
    }
}

/// Any of the 20 function keys, so also the two that are refused.
pub fn function(random: &mut Random) -> Key {
    let action = if random.percent(60) { Action::Move } else { Action::Delete };
    Key::Function(action, random.pick(&DIRECTIONS), random.pick(&PLACES))
}
