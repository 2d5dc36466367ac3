//! The host's boundary of the proved core, as host/include/chidukwore.h declares it.

use second::bytes::{Record, Stores};
use second::core::{Core, Numbers, Reply};
use second::keyboard::Heard;
use second::paint::{Ask, Painting};

#[rustfmt::skip]
extern "C" {
    fn chidukwore_open(
        n: usize,
        rows: usize,
        columns: usize,
        text: *mut u8,
        text_length: usize,
        recall: *mut u8,
        recall_length: usize,
        held: *mut u8,
        held_length: usize,
        side: *mut u8,
        side_length: usize,
        screen: *mut u8,
        screen_length: usize,
    ) -> Reply;

    fn chidukwore_key(
        record: Record,
        kind: usize,
        a: usize,
        b: usize,
        c: usize,
        text: *mut u8,
        text_length: usize,
        recall: *mut u8,
        recall_length: usize,
        held: *mut u8,
        held_length: usize,
        side: *mut u8,
        side_length: usize,
        screen: *mut u8,
        screen_length: usize,
    ) -> Reply;

    fn chidukwore_paint(
        rows: usize,
        columns: usize,
        first: usize,
        last: usize,
        row: usize,
        column: usize,
        screen: *const u8,
        screen_length: usize,
        buffer: *mut u8,
        buffer_length: usize,
    ) -> Painting;

    fn chidukwore_convert(
        record: Record,
        text: *const u8,
        text_length: usize,
        recall: *const u8,
        recall_length: usize,
        held: *const u8,
        held_length: usize,
        old: *const u8,
        old_length: usize,
        side: *mut u8,
        side_length: usize,
    ) -> Reply;

    fn chidukwore_receive(bytes: *const u8, length: usize) -> Heard;
}

pub struct Proved;

impl Core for Proved {
    fn open(&self, n: usize, h: usize, w: usize, stores: &mut Stores) -> Reply {
        lend(stores, |[t, r, k, s, p], [tl, rl, kl, sl, pl]| unsafe { chidukwore_open(n, h, w, t, tl, r, rl, k, kl, s, sl, p, pl) })
    }

    fn key(&self, record: Record, numbers: Numbers, stores: &mut Stores) -> Reply {
        let Numbers { kind, a, b, c } = numbers;
        lend(stores, |[t, r, k, s, p], [tl, rl, kl, sl, pl]| unsafe {
            chidukwore_key(record, kind, a, b, c, t, tl, r, rl, k, kl, s, sl, p, pl)
        })
    }

    /// The screen is guarded too, and must stay as it is.
    fn paint(&self, ask: Ask, screen: &[u8], buffer: &mut [u8]) -> Painting {
        let Ask { h, w, first, last, row, column } = ask;
        let [seen, mut lent] = [screen, &*buffer].map(guarded);
        let (from, into) = (seen[GUARD.len()..].as_ptr(), lent[GUARD.len()..].as_mut_ptr());
        let mut painting = unsafe { chidukwore_paint(h, w, first, last, row, column, from, screen.len(), into, buffer.len()) };
        buffer.copy_from_slice(inside(&lent));
        if inside(&seen) != screen || !guards_stand(&seen) || !guards_stand(&lent) {
            painting.code = usize::MAX;
        }
        painting
    }

    /// The old stores are guarded too, and must stay as they are.
    fn convert(&self, record: Record, old: &Stores, side: &mut [u8]) -> Reply {
        let own = [&old.text, &old.recall, &old.held, &old.side];
        let seen = own.map(|store| guarded(store));
        let mut lent = guarded(side);
        let [t, r, k, s] = seen.each_ref().map(|area| area[GUARD.len()..].as_ptr());
        let [tl, rl, kl, sl] = own.map(Vec::len);
        let into = lent[GUARD.len()..].as_mut_ptr();
        let mut reply = unsafe { chidukwore_convert(record, t, tl, r, rl, k, kl, s, sl, into, side.len()) };
        side.copy_from_slice(inside(&lent));
        let same = own.iter().zip(&seen).all(|(store, area)| inside(area) == &store[..] && guards_stand(area));
        if !same || !guards_stand(&lent) {
            reply.answer.code = usize::MAX;
        }
        reply
    }

    /// The bytes are guarded too, and must stay as they are.
    fn receive(&self, bytes: &[u8]) -> Heard {
        let seen = guarded(bytes);
        let mut heard = unsafe { chidukwore_receive(seen[GUARD.len()..].as_ptr(), bytes.len()) };
        if inside(&seen) != bytes || !guards_stand(&seen) {
            heard.code = usize::MAX;
        }
        heard
    }
}

const GUARD: [u8; 64] = [0xA5; 64];

fn guarded(store: &[u8]) -> Vec<u8> {
    [&GUARD[..], store, &GUARD[..]].concat()
}

fn inside(area: &[u8]) -> &[u8] {
    &area[GUARD.len()..area.len() - GUARD.len()]
}

fn guards_stand(area: &[u8]) -> bool {
    area.starts_with(&GUARD) && area.ends_with(&GUARD)
}

/// Lends each store between two guards, so that a byte written outside it is seen: as a code that no call has.
fn lend(stores: &mut Stores, call: impl FnOnce([*mut u8; 5], [usize; 5]) -> Reply) -> Reply {
    let mut own = [&mut stores.text, &mut stores.recall, &mut stores.held, &mut stores.side, &mut stores.screen];
    let lengths = own.each_ref().map(|store| store.len());
    let mut lent = own.each_ref().map(|store| guarded(store));
    let mut reply = call(lent.each_mut().map(|area| area[GUARD.len()..].as_mut_ptr()), lengths);
    for (store, area) in own.iter_mut().zip(&lent) {
        store.copy_from_slice(inside(area));
        if !guards_stand(area) {
            reply.answer.code = usize::MAX;
        }
    }
    reply
}
