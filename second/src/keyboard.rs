//! Keys as terminals send them (02, M-107; readings, C30 to C32): the bytes of every key, and what bytes received are read as.

use crate::core::{numbers_of, Numbers};
use crate::plain::{Action, Direction, Key, Place, NEWLINE};

pub const SEQUENCE: usize = 9;

const ESC: u8 = 27;

/// "Other keys come as ESC and one small letter, from a constant table that the team chooses and lists in docs/" (docs/KEYBOARD.md).
pub const LETTERS: [(u8, Key); 25] = [
    (b'r', Key::Recall),
    (b'q', Key::Quote),
    (b'f', Key::Find(Direction::Right)),
    (b'u', Key::Find(Direction::Left)),
    (b'x', Key::Replace),
    (b'm', Key::Mark),
    (b'c', Key::Cut),
    (b'p', Key::Paste),
    (b'n', Key::Newline),
    (b't', Key::Tab),
    (b'b', Key::Function(Action::Move, Direction::Left, Place::Word)),
    (b'w', Key::Function(Action::Move, Direction::Right, Place::Word)),
    (b'a', Key::Function(Action::Move, Direction::Left, Place::LineBeginning)),
    (b'e', Key::Function(Action::Move, Direction::Right, Place::LineEnding)),
    (b'k', Key::Function(Action::Move, Direction::Left, Place::LineEnding)),
    (b'j', Key::Function(Action::Move, Direction::Right, Place::LineBeginning)),
    (b'd', Key::Function(Action::Delete, Direction::Right, Place::Character)),
    (b'g', Key::Function(Action::Delete, Direction::Left, Place::Word)),
    (b'h', Key::Function(Action::Delete, Direction::Right, Place::Word)),
    (b's', Key::Function(Action::Delete, Direction::Left, Place::LineBeginning)),
    (b'l', Key::Function(Action::Delete, Direction::Right, Place::LineEnding)),
    (b'i', Key::Function(Action::Delete, Direction::Left, Place::Document)),
    (b'o', Key::Function(Action::Delete, Direction::Right, Place::Document)),
    // These two are always refused, but they are keys (C31).
    (b'y', Key::Function(Action::Delete, Direction::Right, Place::LineBeginning)),
    (b'z', Key::Function(Action::Delete, Direction::Left, Place::LineEnding)),
];

/// What the bytes received so far begin with.
#[derive(Clone, Copy, Debug, PartialEq, Eq)]
pub enum Received {
    /// "One key and the number of bytes used."
    Key(Key, usize),
    /// "'More needed' with 0 used, also for no bytes."
    More,
    /// "9 SEQUENCE, on the first byte that no key continues; used then counts up to and including it."
    Sequence(usize),
}

/// What was received as the host's boundary has it: code and bytes used, and a key's numbers. All are 0 where more is needed.
#[repr(C)]
#[derive(Clone, Copy, Debug, Default, PartialEq, Eq)]
pub struct Heard {
    pub code: usize,
    pub used: usize,
    pub kind: usize,
    pub a: usize,
    pub b: usize,
    pub c: usize,
}

impl Heard {
    pub fn numbers(&self) -> Numbers {
        let Heard { kind, a, b, c, .. } = *self;
        Numbers { kind, a, b, c }
    }
}

impl From<Received> for Heard {
    fn from(received: Received) -> Heard {
        match received {
            Received::More => Heard::default(),
            Received::Sequence(used) => Heard { code: SEQUENCE, used, ..Heard::default() },
            Received::Key(key, used) => {
                let Numbers { kind, a, b, c } = numbers_of(key);
                Heard { code: 0, used, kind, a, b, c }
            }
        }
    }
}

/// Every key that a terminal sends, with its bytes.
pub fn keys() -> Vec<(Vec<u8>, Key)> {
    let moved = |direction, place| Key::Function(Action::Move, direction, place);
    // "Bytes 32 to 126 and 13 are inserts (13 inserts 10)."
    let mut keys: Vec<(Vec<u8>, Key)> = (32..=126).map(|byte| (vec![byte], Key::Insert(byte))).collect();
    keys.push((vec![13], Key::Insert(NEWLINE)));
    // "127 is delete left character."
    keys.push((vec![127], Key::Function(Action::Delete, Direction::Left, Place::Character)));
    // "ESC [ C and ESC [ D are right and left by character; ESC [ H and ESC [ F go to the document's beginning and end."
    keys.push((vec![ESC, b'[', b'C'], moved(Direction::Right, Place::Character)));
    keys.push((vec![ESC, b'[', b'D'], moved(Direction::Left, Place::Character)));
    keys.push((vec![ESC, b'[', b'H'], moved(Direction::Left, Place::Document)));
    keys.push((vec![ESC, b'[', b'F'], moved(Direction::Right, Place::Document)));
    keys.extend(LETTERS.map(|(letter, key)| (vec![ESC, letter], key)));
    keys
}

/// Takes one byte more at a time until they are a key's bytes, or begin no key's.
pub fn receive(bytes: &[u8]) -> Received {
    let keys = keys();
    for used in 0..=bytes.len() {
        let so_far = &bytes[..used];
        if let Some((_, key)) = keys.iter().find(|(bytes, _)| bytes == so_far) {
            return Received::Key(*key, used);
        }
        if !keys.iter().any(|(bytes, _)| bytes.starts_with(so_far)) {
            return Received::Sequence(used);
        }
    }
    Received::More
}

/// A whole stream that arrives in pieces: each key and refusal as soon as it can be read, and the bytes that are left, for which more is
/// needed. What a key or a refusal used is gone, and reading goes on behind it.
pub fn read(pieces: &[&[u8]]) -> (Vec<Received>, Vec<u8>) {
    let mut reading = Vec::new();
    let mut waiting = Vec::new();
    for piece in pieces {
        waiting.extend_from_slice(piece);
        loop {
            let received = receive(&waiting);
            match received {
                Received::Key(_, used) | Received::Sequence(used) => waiting.drain(..used),
                Received::More => break,
            };
            reading.push(received);
        }
    }
    (reading, waiting)
}
