//! The second program behind the host's boundary: a library that can stand in for the proved core where that one isn't built.

use second::bytes::{Record, Stores};
use second::core::{Core, Numbers, Reply, Second};
use second::keyboard::Heard;
use second::paint::{paint, Ask, Painting};
use std::slice::{from_raw_parts, from_raw_parts_mut};

/// Runs a call on copies of the lent stores and copies them back.
///
/// # Safety
/// Each pointer is that of as many bytes as its length says, and none overlap.
unsafe fn lend(lent: [(*mut u8, usize); 5], call: impl FnOnce(&mut Stores) -> Reply) -> Reply {
    let mut lent = lent.map(|(store, length)| from_raw_parts_mut(store, length));
    let copy = |i: usize| lent[i].to_vec();
    let mut stores = Stores { text: copy(0), recall: copy(1), held: copy(2), side: copy(3), screen: copy(4) };
    let reply = call(&mut stores);
    for (store, bytes) in lent.iter_mut().zip([stores.text, stores.recall, stores.held, stores.side, stores.screen]) {
        store.copy_from_slice(&bytes);
    }
    reply
}

/// # Safety
/// As the header says.
#[no_mangle]
pub unsafe extern "C" fn chidukwore_open(
    n: usize,
    rows: usize,
    columns: usize,
    text: *mut u8,
    text_length: usize,
    recall: *mut u8,
    recall_length: usize,
    held: *mut u8,
    held_length: usize,
    side: *mut u8,
    side_length: usize,
    screen: *mut u8,
    screen_length: usize,
) -> Reply {
    let lent = [(text, text_length), (recall, recall_length), (held, held_length), (side, side_length), (screen, screen_length)];
    lend(lent, |stores| Second.open(n, rows, columns, stores))
}

/// # Safety
/// As the header says.
#[no_mangle]
pub unsafe extern "C" fn chidukwore_key(
    record: Record,
    kind: usize,
    a: usize,
    b: usize,
    c: usize,
    text: *mut u8,
    text_length: usize,
    recall: *mut u8,
    recall_length: usize,
    held: *mut u8,
    held_length: usize,
    side: *mut u8,
    side_length: usize,
    screen: *mut u8,
    screen_length: usize,
) -> Reply {
    let lent = [(text, text_length), (recall, recall_length), (held, held_length), (side, side_length), (screen, screen_length)];
    lend(lent, |stores| Second.key(record, Numbers { kind, a, b, c }, stores))
}

/// # Safety
/// As the header says.
#[no_mangle]
pub unsafe extern "C" fn chidukwore_paint(
    h: usize,
    w: usize,
    first: usize,
    last: usize,
    row: usize,
    column: usize,
    screen: *const u8,
    screen_length: usize,
    buffer: *mut u8,
    buffer_length: usize,
) -> Painting {
    let ask = Ask { h, w, first, last, row, column };
    paint(ask, from_raw_parts(screen, screen_length), from_raw_parts_mut(buffer, buffer_length))
}

/// # Safety
/// As the header says.
#[no_mangle]
pub unsafe extern "C" fn chidukwore_convert(
    record: Record,
    text: *const u8,
    text_length: usize,
    recall: *const u8,
    recall_length: usize,
    held: *const u8,
    held_length: usize,
    old: *const u8,
    old_length: usize,
    side: *mut u8,
    side_length: usize,
) -> Reply {
    let copy = |store: *const u8, length: usize| from_raw_parts(store, length).to_vec();
    let stores = Stores {
        text: copy(text, text_length),
        recall: copy(recall, recall_length),
        held: copy(held, held_length),
        side: copy(old, old_length),
        screen: Vec::new(),
    };
    Second.convert(record, &stores, from_raw_parts_mut(side, side_length))
}

/// # Safety
/// As the header says.
#[no_mangle]
pub unsafe extern "C" fn chidukwore_receive(bytes: *const u8, length: usize) -> Heard {
    Second.receive(from_raw_parts(bytes, length))
}
