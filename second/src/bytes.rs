//! The record and the five stores (01, "What the core holds"; 02, M-101, M-106, M-109): sizes, encoding, decoding, and the session test
//! by its sentences.

use crate::plain::{allowed, Doc, Edited, Editor, Mode, QUARTER};
use crate::reader::too_long;
use crate::window::{virtual_text, visible, Offsets};

pub const LARGEST_T: usize = 65_536;
pub const LARGEST_H: usize = 64;
pub const LARGEST_W: usize = 256;
/// "So the store has 4,096" (02, M-109).
pub const SIDE: usize = 4 * QUARTER;
/// What the record says of the mark where there is none.
pub const NO_MARK: usize = usize::MAX;

/// The session record as the host's boundary has it; r and c of document 01 are `top` and `left`, H and W `rows` and `columns`.
#[repr(C)]
#[derive(Clone, Copy, Debug, PartialEq, Eq)]
pub struct Record {
    pub l: usize,
    pub r: usize,
    pub ql: usize,
    pub qr: usize,
    pub rl: usize,
    pub rr: usize,
    pub qrl: usize,
    pub qrr: usize,
    pub xl: usize,
    pub xr: usize,
    pub pl: usize,
    pub mode: usize,
    pub top: usize,
    pub left: usize,
    pub rows: usize,
    pub columns: usize,
    pub held_left: usize,
    pub held_right: usize,
    pub mark: usize,
}

/// "A record of zeros", as a refused opening returns it; its mark is none, as an opening gives it (readings, C15).
impl Default for Record {
    fn default() -> Record {
        Record {
            l: 0,
            r: 0,
            ql: 0,
            qr: 0,
            rl: 0,
            rr: 0,
            qrl: 0,
            qrr: 0,
            xl: 0,
            xr: 0,
            pl: 0,
            mode: 0,
            top: 0,
            left: 0,
            rows: 0,
            columns: 0,
            held_left: 0,
            held_right: 0,
            mark: NO_MARK,
        }
    }
}

impl Record {
    /// The 19 numbers in their order.
    pub fn fields(&mut self) -> [&mut usize; 19] {
        let Record { l, r, ql, qr, rl, rr, qrl, qrr, xl, xr, pl, mode, top, left, rows, columns, held_left, held_right, mark } =
            self;
        [l, r, ql, qr, rl, rr, qrl, qrr, xl, xr, pl, mode, top, left, rows, columns, held_left, held_right, mark]
    }
}

#[derive(Clone, Debug, Default, PartialEq, Eq)]
pub struct Stores {
    pub text: Vec<u8>,
    pub recall: Vec<u8>,
    pub held: Vec<u8>,
    pub side: Vec<u8>,
    pub screen: Vec<u8>,
}

impl Stores {
    /// Stores of the right lengths for T, H and W, all zeros.
    pub fn zeros(t: usize, h: usize, w: usize) -> Stores {
        Stores { text: vec![0; t], recall: vec![0; t], held: vec![0; t], side: vec![0; SIDE], screen: vec![0; h * w] }
    }
}

/// Is each store's length, and H and W, as tabled?
pub fn sizes_fit(stores: &Stores, h: usize, w: usize) -> bool {
    sizes_fit_unseen(stores, h, w, SIDE) && stores.screen.len() == h * w
}

/// The same where no screen is lent, for a side store of so many bytes.
pub fn sizes_fit_unseen(stores: &Stores, h: usize, w: usize, side: usize) -> bool {
    (1..=LARGEST_T).contains(&stores.text.len())
        && stores.recall.len() == stores.text.len()
        && stores.held.len() == stores.text.len()
        && stores.side.len() == side
        && (1..=LARGEST_H).contains(&h)
        && (1..=LARGEST_W).contains(&w)
}

/// Left text at the front, right text at the back, zeros between.
fn gap(doc: &Doc, length: usize) -> Vec<u8> {
    let mut area = doc.l.clone();
    area.resize(length - doc.r.len(), 0);
    area.extend(&doc.r);
    area
}

/// The left text, the right text directly after it, zeros to the end.
fn pair(doc: &Doc, length: usize) -> Vec<u8> {
    let mut area = doc.content();
    area.resize(length, 0);
    area
}

/// The text store, the recall store, the held text's store and the side store of a plain state. The screen isn't a matter of the state
/// alone.
pub fn encode(editor: &Editor, t: usize) -> (Vec<u8>, Vec<u8>, Vec<u8>, Vec<u8>) {
    encode_by(editor, t, QUARTER)
}

/// The same with a side store whose quarters are so long.
pub fn encode_by(editor: &Editor, t: usize, length: usize) -> (Vec<u8>, Vec<u8>, Vec<u8>, Vec<u8>) {
    let pattern = Doc::new(&editor.pattern, &[]);
    let side = [
        gap(&editor.quoted.text, length),
        pair(&editor.quoted.recall, length),
        pair(&pattern, length),
        pair(&editor.replacement, length),
    ];
    (gap(&editor.main.text, t), pair(&editor.main.recall, t), pair(&editor.held, t), side.concat())
}

pub fn record(editor: &Editor, at: Offsets, h: usize, w: usize) -> Record {
    let (main, quoted) = (&editor.main, &editor.quoted);
    Record {
        l: main.text.l.len(),
        r: main.text.r.len(),
        ql: quoted.text.l.len(),
        qr: quoted.text.r.len(),
        rl: main.recall.l.len(),
        rr: main.recall.r.len(),
        qrl: quoted.recall.l.len(),
        qrr: quoted.recall.r.len(),
        xl: editor.replacement.l.len(),
        xr: editor.replacement.r.len(),
        pl: editor.pattern.len(),
        mode: editor.mode as usize,
        top: at.r,
        left: at.c,
        rows: h,
        columns: w,
        held_left: editor.held.l.len(),
        held_right: editor.held.r.len(),
        mark: editor.mark.unwrap_or(NO_MARK),
    }
}

/// Two lengths fit an area. Each may be as large as a number can be, so their sum is not formed before both are small.
fn fit(l: usize, r: usize, area: &[u8]) -> bool {
    l <= area.len() && r <= area.len() - l
}

/// The plain state that record and stores stand for, if they are a session. The sizes are known to be right.
pub fn session(record: &Record, stores: &Stores) -> Option<Editor> {
    session_by(record, stores, QUARTER)
}

/// The same with a side store whose quarters are so long. The screen is no part of it (readings, B17).
pub fn session_by(record: &Record, stores: &Stores, length: usize) -> Option<Editor> {
    let Record { l, r, ql, qr, rl, rr, qrl, qrr, xl, xr, pl, held_left, held_right, .. } = *record;
    let quarter = |i: usize| &stores.side[i * length..(i + 1) * length];

    // Lengths fit their areas.
    let fitting = fit(l, r, &stores.text)
        && fit(rl, rr, &stores.recall)
        && fit(held_left, held_right, &stores.held)
        && fit(ql, qr, quarter(0))
        && fit(qrl, qrr, quarter(1))
        && fit(pl, 0, quarter(2))
        && fit(xl, xr, quarter(3));
    if !fitting {
        return None;
    }

    // Each free byte is 0: all of an area but its left text and its right text.
    let free = |area: &[u8]| area.iter().all(|byte| *byte == 0);
    let between = |area: &[u8], l: usize, r: usize| free(&area[l..area.len() - r]);
    let behind = |area: &[u8], l: usize, r: usize| free(&area[l + r..]);
    let zeros = between(&stores.text, l, r)
        && behind(&stores.recall, rl, rr)
        && behind(&stores.held, held_left, held_right)
        && between(quarter(0), ql, qr)
        && behind(quarter(1), qrl, qrr)
        && behind(quarter(2), pl, 0)
        && behind(quarter(3), xl, xr);
    if !zeros {
        return None;
    }

    let ends = |area: &[u8], l: usize, r: usize| Doc::new(&area[..l], &area[area.len() - r..]);
    let front = |area: &[u8], l: usize, r: usize| Doc::new(&area[..l], &area[l..l + r]);
    let editor = Editor {
        main: Edited { text: ends(&stores.text, l, r), recall: front(&stores.recall, rl, rr) },
        quoted: Edited { text: ends(quarter(0), ql, qr), recall: front(quarter(1), qrl, qrr) },
        pattern: quarter(2)[..pl].to_vec(),
        replacement: front(quarter(3), xl, xr),
        // A number that is no mode is no session (readings, D1).
        mode: match record.mode {
            0 => Mode::Main,
            1 => Mode::Quoted,
            _ => return None,
        },
        held: front(&stores.held, held_left, held_right),
        // "A session needs the mark within the document" (02, M-101): behind its last byte at most (C18).
        mark: match record.mark {
            NO_MARK => None,
            mark if mark <= l + r => Some(mark),
            _ => return None,
        },
    };

    // Each text byte is allowed.
    let (main, quoted) = (&editor.main, &editor.quoted);
    let docs = [&main.text, &main.recall, &quoted.text, &quoted.recall, &editor.replacement, &editor.held];
    let good = |doc: &&Doc| doc.l.iter().chain(&doc.r).all(|byte| allowed(*byte));
    let letters = docs.iter().all(good) && editor.pattern.iter().all(|byte| allowed(*byte));

    // Of each recall pair at least one half is empty; the replacement is no recall pair. "The held pair under the recall pair's rule."
    let halves = (rl == 0 || rr == 0) && (qrl == 0 || qrr == 0) && (held_left == 0 || held_right == 0);

    // In mode MAIN the quotation and its recall text are empty.
    let quiet = editor.mode == Mode::Quoted || editor.quoted == Edited::default();

    // No line of the document is longer than the reader takes: "a session needs it too" (02, M-106).
    let readable = too_long(&main.text.content()).is_none();

    // The cursor is visible under r and c.
    let at = Offsets { r: record.top, c: record.left };
    let seen = visible(&virtual_text(&editor), at, record.rows, record.columns);

    (letters && halves && quiet && readable && seen).then_some(editor)
}
