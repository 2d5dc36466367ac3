//! The limit: what every key call has to do at least, one vectorised pass over all lent bytes.

use crate::stores::Stores;

#[inline(never)]
fn pass(s: &[u8]) -> bool {
    s.iter().fold(true, |ok, &b| ok & ((b == 10) | (32..=126).contains(&b)))
}

pub fn over(stores: &Stores) -> bool {
    let Stores { text, recall, held, side, screen } = stores;
    pass(text) & pass(recall) & pass(held) & pass(side) & pass(screen)
}
