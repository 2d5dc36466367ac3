//! The opening call and the key call, on arbitrary bytes and numbers, with all refusals in their order; and what a core is: these two,
//! the routine for terminals, the conversion of old sessions, and the keys in bytes received.

use crate::bytes::{encode, record, session, sizes_fit, Record, Stores};
use crate::convert::{convert, Conversion};
use crate::keyboard::{receive, Heard};
use crate::paint::{paint, Ask, Painting};
use crate::plain::{allowed, press, Action, Direction, Doc, Edited, Editor, Key, Place, Refusal};
use crate::reader::too_long;
use crate::window::{cursor, named_rows, policy, virtual_text, window, Offsets};

pub const SIZE: usize = 1;
pub const LONG: usize = 2;
pub const TEXT: usize = 3;
pub const SESSION: usize = 4;
pub const KEY: usize = 5;
pub const FULL: usize = 6;
pub const LINE: usize = 8;

#[repr(C)]
#[derive(Clone, Copy, Debug, Default, PartialEq, Eq)]
pub struct Answer {
    pub code: usize,
    pub place: usize,
    pub steps: usize,
    pub lines: usize,
    pub bell: usize,
    pub first: usize,
    pub last: usize,
    pub row: usize,
    pub column: usize,
}

#[repr(C)]
#[derive(Clone, Copy, Debug, Default, PartialEq, Eq)]
pub struct Reply {
    pub answer: Answer,
    pub record: Record,
}

/// A key as the host's boundary has it: a kind, and what a, b and c say of it.
#[derive(Clone, Copy, Debug, Default, PartialEq, Eq)]
pub struct Numbers {
    pub kind: usize,
    pub a: usize,
    pub b: usize,
    pub c: usize,
}

/// Two calls on five lent stores, the bytes for terminals, the conversion of old sessions, and the keys in the bytes that terminals send:
/// this program's, or the proved core's behind its boundary.
pub trait Core {
    fn open(&self, n: usize, h: usize, w: usize, stores: &mut Stores) -> Reply;
    fn key(&self, record: Record, numbers: Numbers, stores: &mut Stores) -> Reply;
    fn paint(&self, ask: Ask, screen: &[u8], buffer: &mut [u8]) -> Painting;
    /// From the old stores, whose screen is not lent, to the new side store.
    fn convert(&self, record: Record, old: &Stores, side: &mut [u8]) -> Reply;
    fn receive(&self, bytes: &[u8]) -> Heard;
}

/// This program.
pub struct Second;

impl Core for Second {
    fn open(&self, n: usize, h: usize, w: usize, stores: &mut Stores) -> Reply {
        let refused = |code, place| Reply { answer: Answer { code, place, ..Answer::default() }, record: Record::default() };
        if !sizes_fit(stores, h, w) {
            return refused(SIZE, 0);
        }
        if n > stores.text.len() {
            return refused(LONG, 0);
        }
        if let Some(place) = stores.text[..n].iter().position(|byte| !allowed(*byte)) {
            return refused(TEXT, place);
        }
        if let Some(place) = too_long(&stores.text[..n]) {
            return refused(LINE, place);
        }
        let text = Doc::new(&[], &stores.text[..n]);
        let editor = Editor { main: Edited { text, recall: Doc::default() }, ..Editor::default() };
        let mut reply = finish(&editor, Offsets::default(), h, w, stores);
        (reply.answer.first, reply.answer.last) = (1, h);
        reply
    }

    fn key(&self, given: Record, numbers: Numbers, stores: &mut Stores) -> Reply {
        let refused = |code| Reply { answer: Answer { code, ..Answer::default() }, record: given };
        let (h, w) = (given.rows, given.columns);
        if !sizes_fit(stores, h, w) {
            return refused(SIZE);
        }
        let Some(before) = session(&given, stores) else {
            return refused(SESSION);
        };
        let Some(key) = key_of(numbers) else {
            return refused(KEY);
        };
        match press(&before, key, stores.text.len()) {
            Err(Refusal::Key) => refused(KEY),
            Err(Refusal::Full) => refused(FULL),
            Err(Refusal::Line) => refused(LINE),
            Ok(pressed) => {
                let offsets = Offsets { r: given.top, c: given.left };
                let mut reply = finish(&pressed.editor, offsets, h, w, stores);
                reply.answer.steps = pressed.steps;
                reply.answer.lines = pressed.lines;
                reply.answer.bell = pressed.bell as usize;
                reply
            }
        }
    }

    fn paint(&self, ask: Ask, screen: &[u8], buffer: &mut [u8]) -> Painting {
        paint(ask, screen, buffer)
    }

    fn convert(&self, record: Record, old: &Stores, side: &mut [u8]) -> Reply {
        let Conversion { code, record } = convert(record, old, side);
        Reply { answer: Answer { code, ..Answer::default() }, record }
    }

    fn receive(&self, bytes: &[u8]) -> Heard {
        receive(bytes).into()
    }
}

/// Writes the stores, moves the offsets as the policy says, paints the screen and names the rows that changed.
fn finish(editor: &Editor, offsets: Offsets, h: usize, w: usize, stores: &mut Stores) -> Reply {
    let text = virtual_text(editor);
    let at = policy(&text, offsets, h, w);
    let screen = window(&text, at, h, w);
    let (first, last) = named_rows(&stores.screen, &screen, w);
    let (row, column) = cursor(&text);
    (stores.text, stores.recall, stores.held, stores.side) = encode(editor, stores.text.len());
    stores.screen = screen;
    let answer = Answer { first, last, row: row - at.r, column: column - at.c, ..Answer::default() };
    Reply { answer, record: record(editor, at, h, w) }
}

/// The key that numbers name, if they name one.
pub fn key_of(numbers: Numbers) -> Option<Key> {
    Some(match numbers.kind {
        0 => Key::Insert(u8::try_from(numbers.a).ok()?),
        1 => Key::Function(action(numbers.a)?, direction(numbers.b)?, place(numbers.c)?),
        2 => Key::Recall,
        3 => Key::Quote,
        4 => Key::Find(direction(numbers.a)?),
        5 => Key::Replace,
        6 => Key::Mark,
        7 => Key::Cut,
        8 => Key::Paste,
        9 => Key::Newline,
        10 => Key::Tab,
        _ => return None,
    })
}

fn action(number: usize) -> Option<Action> {
    [Action::Move, Action::Delete].get(number).copied()
}

fn direction(number: usize) -> Option<Direction> {
    [Direction::Left, Direction::Right].get(number).copied()
}

fn place(number: usize) -> Option<Place> {
    [Place::Character, Place::Word, Place::LineBeginning, Place::LineEnding, Place::Document].get(number).copied()
}

/// The numbers of a key; each enum's variants stand in the boundary's order.
pub fn numbers_of(key: Key) -> Numbers {
    let (kind, a, b, c) = match key {
        Key::Insert(byte) => (0, byte as usize, 0, 0),
        Key::Function(action, direction, place) => (1, action as usize, direction as usize, place as usize),
        Key::Recall => (2, 0, 0, 0),
        Key::Quote => (3, 0, 0, 0),
        Key::Find(direction) => (4, direction as usize, 0, 0),
        Key::Replace => (5, 0, 0, 0),
        Key::Mark => (6, 0, 0, 0),
        Key::Cut => (7, 0, 0, 0),
        Key::Paste => (8, 0, 0, 0),
        Key::Newline => (9, 0, 0, 0),
        Key::Tab => (10, 0, 0, 0),
    };
    Numbers { kind, a, b, c }
}
