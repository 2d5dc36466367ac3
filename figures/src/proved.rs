//! The proved core behind the host's boundary.

use crate::chidukwore::{self, Key, Record, Reply, SIDE};
use crate::stores::Stores;

/// Opens a text in stores of its own: T bytes, H rows and W columns.
pub fn open(document: &[u8], t: usize, h: usize, w: usize) -> (Record, Stores) {
    let (text, recall, held) = (vec![0; t], vec![0; t], vec![0; t]);
    let mut stores = Stores { text, recall, held, side: vec![0; SIDE], screen: vec![0; h * w] };
    stores.text[..document.len()].copy_from_slice(document);
    let reply = chidukwore::open(document.len(), h, w, stores.lent());
    assert_eq!(reply.answer.code, 0, "opening is not refused");
    (reply.record, stores)
}

pub fn key(record: Record, key: Key, stores: &mut Stores) -> Reply {
    chidukwore::key(record, key, stores.lent())
}
