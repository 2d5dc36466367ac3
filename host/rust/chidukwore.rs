//! The core for hosts in Rust, as include/chidukwore.h declares it for C. Link with libwindow.a.

// A host uses of it what it needs.
#![allow(dead_code)]

/// What the record's mark is where the document has none.
pub const NO_MARK: usize = usize::MAX;

/// The session record: lengths left and right of a cursor, of both halves of a pair, or alone; then mode, offsets, rows and columns; then
/// the lengths of the held text's halves, and how many bytes of the document lie left of the mark.
#[repr(C)]
#[derive(Clone, Copy, Debug, PartialEq, Eq)]
pub struct Record {
    pub l: usize,
    pub r: usize,
    pub ql: usize,
    pub qr: usize,
    pub rl: usize,
    pub rr: usize,
    pub qrl: usize,
    pub qrr: usize,
    pub xl: usize,
    pub xr: usize,
    pub pl: usize,
    pub mode: usize,
    pub top: usize,
    pub left: usize,
    pub rows: usize,
    pub columns: usize,
    pub held_left: usize,
    pub held_right: usize,
    pub mark: usize,
}

/// The record of a refused opening: zeros, and no mark.
#[rustfmt::skip]
impl Default for Record {
    fn default() -> Record {
        Record {
            l: 0, r: 0, ql: 0, qr: 0, rl: 0, rr: 0, qrl: 0, qrr: 0, xl: 0, xr: 0, pl: 0, mode: 0, top: 0, left: 0, rows: 0, columns: 0,
            held_left: 0, held_right: 0, mark: NO_MARK,
        }
    }
}

/// What opening, a key and a conversion answer: 0 or a refusal, by the numbers of include/chidukwore.h; the place of TEXT, or of an opening's LINE; then what
/// an accepted call reports.
#[repr(C)]
#[derive(Clone, Copy, Debug, Default, PartialEq, Eq)]
pub struct Answer {
    pub code: usize,
    pub place: usize,
    pub steps: usize,
    pub lines: usize,
    pub bell: usize,
    pub first: usize,
    pub last: usize,
    pub row: usize,
    pub column: usize,
}

#[repr(C)]
#[derive(Clone, Copy, Debug, Default, PartialEq, Eq)]
pub struct Reply {
    pub answer: Answer,
    pub record: Record,
}

/// What painting answers: 0 or a refusal, the place of TEXT, and how many bytes it wrote.
#[repr(C)]
#[derive(Clone, Copy, Debug, Default, PartialEq, Eq)]
pub struct Painting {
    pub code: usize,
    pub place: usize,
    pub count: usize,
}

/// What bytes received so far give: 0 or SEQUENCE; how many of them it is about, 0 where more are needed; and the key.
#[repr(C)]
#[derive(Clone, Copy, Debug, Default, PartialEq, Eq)]
pub struct Heard {
    pub code: usize,
    pub used: usize,
    pub kind: usize,
    pub a: usize,
    pub b: usize,
    pub c: usize,
}

/// The refusal of bytes that are no key.
pub const SEQUENCE: usize = 9;

/// A key: its kind, and what a, b and c say of it.
#[derive(Clone, Copy, Debug, PartialEq, Eq)]
pub struct Key(pub usize, pub usize, pub usize, pub usize);

pub const RECALL: Key = Key(2, 0, 0, 0);
pub const QUOTE: Key = Key(3, 0, 0, 0);
pub const FIND: Key = Key(4, 1, 0, 0);
pub const UPFIND: Key = Key(4, 0, 0, 0);
pub const REPLACE: Key = Key(5, 0, 0, 0);
pub const MARK: Key = Key(6, 0, 0, 0);
pub const CUT: Key = Key(7, 0, 0, 0);
pub const PASTE: Key = Key(8, 0, 0, 0);
pub const NEWLINE: Key = Key(9, 0, 0, 0);
pub const TAB: Key = Key(10, 0, 0, 0);

pub fn insert(b: u8) -> Key {
    Key(0, b.into(), 0, 0)
}

/// The five stores that a call is lent.
pub struct Stores<'a> {
    pub text: &'a mut [u8],
    pub recall: &'a mut [u8],
    pub held: &'a mut [u8],
    pub side: &'a mut [u8],
    pub screen: &'a mut [u8],
}

#[rustfmt::skip]
extern "C" {
    fn chidukwore_open(
        n: usize, rows: usize, columns: usize,
        text: *mut u8, text_length: usize, recall: *mut u8, recall_length: usize, held: *mut u8, held_length: usize,
        side: *mut u8, side_length: usize, screen: *mut u8, screen_length: usize,
    ) -> Reply;
    fn chidukwore_key(
        record: Record, kind: usize, a: usize, b: usize, c: usize,
        text: *mut u8, text_length: usize, recall: *mut u8, recall_length: usize, held: *mut u8, held_length: usize,
        side: *mut u8, side_length: usize, screen: *mut u8, screen_length: usize,
    ) -> Reply;
    fn chidukwore_convert(
        record: Record,
        text: *const u8, text_length: usize, recall: *const u8, recall_length: usize, held: *const u8, held_length: usize,
        old: *const u8, old_length: usize, side: *mut u8, side_length: usize,
    ) -> Reply;
    fn chidukwore_paint(
        rows: usize, columns: usize, first: usize, last: usize, row: usize, column: usize,
        screen: *const u8, screen_length: usize, buffer: *mut u8, buffer_length: usize,
    ) -> Painting;
    fn chidukwore_receive(bytes: *const u8, length: usize) -> Heard;
}

/// Opens the first n bytes of the text store.
#[rustfmt::skip]
pub fn open(n: usize, rows: usize, columns: usize, lent: Stores) -> Reply {
    let Stores { text, recall, held, side, screen } = lent;
    // Sound: each pointer comes with the length of its own store, and no two stores overlap.
    unsafe {
        chidukwore_open(
            n, rows, columns,
            text.as_mut_ptr(), text.len(), recall.as_mut_ptr(), recall.len(), held.as_mut_ptr(), held.len(),
            side.as_mut_ptr(), side.len(), screen.as_mut_ptr(), screen.len(),
        )
    }
}

/// Presses a key.
#[rustfmt::skip]
pub fn key(record: Record, Key(kind, a, b, c): Key, lent: Stores) -> Reply {
    let Stores { text, recall, held, side, screen } = lent;
    // Sound: as above.
    unsafe {
        chidukwore_key(
            record, kind, a, b, c,
            text.as_mut_ptr(), text.len(), recall.as_mut_ptr(), recall.len(), held.as_mut_ptr(), held.len(),
            side.as_mut_ptr(), side.len(), screen.as_mut_ptr(), screen.len(),
        )
    }
}

/// The length of the side store, and the one that it had before conversion.
pub const SIDE: usize = 4096;
pub const OLD_SIDE: usize = 1024;

/// An old session's stores, which the conversion only reads.
pub struct OldStores<'a> {
    pub text: &'a [u8],
    pub recall: &'a [u8],
    pub held: &'a [u8],
    pub old: &'a [u8],
}

/// Converts an old session: the new side store is written over, and the record comes back as it was given.
#[rustfmt::skip]
pub fn convert(record: Record, stores: OldStores, side: &mut [u8]) -> Reply {
    let OldStores { text, recall, held, old } = stores;
    // Sound: as above.
    unsafe {
        chidukwore_convert(
            record,
            text.as_ptr(), text.len(), recall.as_ptr(), recall.len(), held.as_ptr(), held.len(),
            old.as_ptr(), old.len(), side.as_mut_ptr(), side.len(),
        )
    }
}

/// Bytes that are enough for any painting on a screen of this size.
pub const fn enough(rows: usize, columns: usize) -> usize {
    rows * (columns + 7) + 9
}

/// Writes the bytes that bring a terminal up to date with the screen: the rows that an answer names, and its cursor.
pub fn paint(rows: usize, columns: usize, answer: Answer, screen: &[u8], buffer: &mut [u8]) -> Painting {
    let Answer { first, last, row, column, .. } = answer;
    let (screen, screen_length) = (screen.as_ptr(), screen.len());
    let (buffer, buffer_length) = (buffer.as_mut_ptr(), buffer.len());
    // Sound: as above.
    unsafe { chidukwore_paint(rows, columns, first, last, row, column, screen, screen_length, buffer, buffer_length) }
}

/// The first key of the bytes that a terminal sent. Those that are not used, at most 2, go in front of the next that arrive.
pub fn receive(bytes: &[u8]) -> Heard {
    // Sound: as above.
    unsafe { chidukwore_receive(bytes.as_ptr(), bytes.len()) }
}
