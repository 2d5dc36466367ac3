//! Calls of the conversion of old sessions: states made as those of the calls are, with old quarters that are often full, and in two of three
//! calls something that is wrong; and keys for the session that comes out.

use crate::bytes::{encode_by, record, Record, Stores, SIDE};
use crate::calls::{any_store, doc, editor, key, offsets};
use crate::convert::{OLD_QUARTER, OLD_SIDE};
use crate::core::{numbers_of, Core, Reply};
use crate::generate::{columns, letters, rows, text};
use crate::plain::{Doc, Editor, Key, Mode};
use crate::random::Random;
use crate::window::virtual_text;
use crate::{damage, long_lines};

/// `old` has no screen, for none is lent; `side` is what the new side store holds before.
#[derive(Clone, Debug, PartialEq, Eq)]
pub struct ConvertCall {
    pub record: Record,
    pub old: Stores,
    pub side: Vec<u8>,
    pub keys: Vec<Key>,
}

/// The reply, the whole new side store, and what each key did to the converted session.
#[derive(Clone, Debug, PartialEq, Eq)]
pub struct Converted {
    pub reply: Reply,
    pub side: Vec<u8>,
    pub after: Vec<(Reply, Stores)>,
}

impl ConvertCall {
    /// What a core makes of it. Where it is accepted the keys are pressed on what it returned, over a blank screen.
    pub fn outcome(&self, core: &dyn Core) -> Converted {
        let mut side = self.side.clone();
        let reply = core.convert(self.record, &self.old, &mut side);
        let mut after = Vec::new();
        if reply.answer.code == 0 {
            let mut stores = Stores { side: side.clone(), ..self.old.clone() };
            stores.screen = vec![32; self.record.rows.wrapping_mul(self.record.columns).min(1 << 14)];
            let mut record = reply.record;
            for key in &self.keys {
                let reply = core.key(record, numbers_of(*key), &mut stores);
                record = reply.record;
                after.push((reply, stores.clone()));
            }
        }
        Converted { reply, side, after }
    }
}

/// A call, and whether it is a damaged one.
pub fn call(random: &mut Random) -> (ConvertCall, bool) {
    let (h, w) = (rows(random), columns(random));
    let mut t = any_store(random);
    let mut editor = editor(random, t, OLD_QUARTER);
    fill(random, &mut editor);
    if random.percent(6) {
        // Lines that the reader takes, or just doesn't.
        let document = long_lines::to_open(random);
        t = t.max(document.len());
        editor.main.text = doc(random, document);
    }
    let end = editor.main.text.length();
    let any = random.within(0, end);
    editor.mark = random.pick(&[None, Some(0), Some(end), Some(any)]);
    let times = random.pick(&[0, 0, 1, 1, 1, 2]);
    if times > 0 && random.percent(6) {
        // Back in MAIN, with something of the quotation left.
        editor.mode = Mode::Main;
        if random.percent(50) {
            editor.quoted.text = Doc::default();
        } else {
            editor.quoted.recall = Doc::default();
        }
    }
    let seen = virtual_text(&editor);
    let at = offsets(random, &seen, h, w);
    let (text, recall, held, side) = encode_by(&editor, t, OLD_QUARTER);
    let old = Stores { text, recall, held, side, screen: Vec::new() };
    let letters = letters(random);
    let keys = (0..random.pick(&[0, 1, 1, 2, 4])).map(|_| key(random, letters)).collect();
    // What the new store held is seen wherever it stays.
    let first = random.draw() as u8;
    let side = match random.below(4) {
        0 => vec![0; SIDE],
        1 => vec![first; SIDE],
        _ => (0..SIDE).map(|i| first.wrapping_add((i % 251) as u8)).collect(),
    };
    let mut call = ConvertCall { record: record(&editor, at, h, w), old, side, keys };
    for _ in 0..times {
        match random.weighted(&[40, 25, 10, 10, 5, 10]) {
            0 => damage::record(random, &mut call.record, &mut call.old, &seen),
            1 => damage::byte(random, &call.record, &mut call.old, OLD_QUARTER),
            2 => edge(random, &mut call.old),
            3 => overflow(random, &mut call),
            4 => damage::length(random, &mut call.old),
            _ => sides(random, &mut call),
        }
    }
    call.old.screen.clear();
    (call, times > 0)
}

/// Now and then quarters that are full, or all but a byte or two: with the quotation's halves at both ends of its quarter, and each pair's
/// bytes in either half.
fn fill(random: &mut Random, editor: &mut Editor) {
    let letters = letters(random);
    let share = random.pick(&[0, 0, 30, 100]);
    let full = |random: &mut Random| {
        let n = OLD_QUARTER - random.pick(&[0, 0, 0, 1, 2]);
        random.percent(share).then(|| text(random, letters, n))
    };
    if let Some(pattern) = full(random) {
        editor.pattern = pattern;
    }
    if let Some(replacement) = full(random) {
        editor.replacement = doc(random, replacement);
    }
    if editor.mode == Mode::Quoted {
        if let Some(quotation) = full(random) {
            editor.quoted.text = doc(random, quotation);
        }
        if let Some(recall) = full(random) {
            editor.quoted.recall = if random.percent(50) { Doc::new(&recall, &[]) } else { Doc::new(&[], &recall) };
        }
    }
}

/// A byte at the end or the beginning of an old quarter.
fn edge(random: &mut Random, old: &mut Stores) {
    let at = random.pick(&[0, 1, 2, 3, 4].map(|i| i * OLD_QUARTER)).wrapping_sub(random.below(2));
    if let Some(byte) = old.side.get_mut(at) {
        *byte = random.pick(&[0, 1, 10, 31, 32, b'a', b'a', 126, 127, 255]);
    }
}

/// A text of a quarter that has 257 bytes, all of them letters: its last is the next quarter's first.
fn overflow(random: &mut Random, call: &mut ConvertCall) {
    let quarter = random.below(4);
    let from = quarter * OLD_QUARTER;
    let most = call.old.side.len().min(from + OLD_QUARTER + 1);
    if from < most {
        call.old.side[from..most].fill(b'a');
    }
    let (left, right) = random.pick(&[(257, 0), (0, 257), (256, 1), (1, 256), (255, 2)]);
    let Record { ql, qr, qrl, qrr, pl, xl, xr, .. } = &mut call.record;
    match quarter {
        0 => (*ql, *qr) = (left, right),
        1 => (*qrl, *qrr) = (left, right),
        2 => *pl = 257,
        _ => (*xl, *xr) = (left, right),
    }
}

/// Another length of the old side store or of the new one.
fn sides(random: &mut Random, call: &mut ConvertCall) {
    if random.percent(50) {
        call.old.side.resize(random.pick(&[OLD_SIDE - 1, OLD_SIDE + 1, SIDE, 0]), random.pick(&[0, 0, b'a']));
    } else {
        call.side.resize(random.pick(&[0, OLD_SIDE, SIDE - 1, SIDE + 1]), 7);
    }
}
