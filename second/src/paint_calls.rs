//! Calls of the routine that writes the bytes for terminals: any screen, rows and cursor, buffers that just fit or just don't, and in
//! two of three calls something that is wrong.

use crate::core::Core;
use crate::damage::HUGE;
use crate::generate::{columns, rows};
use crate::paint::{bytes, Ask, Painting};
use crate::random::Random;

/// Bytes on both sides of what a cell may show.
const BAD: [u8; 9] = [0, 9, 10, 27, 31, 127, 128, 160, 255];

#[derive(Clone, Debug, PartialEq, Eq)]
pub struct PaintCall {
    pub ask: Ask,
    pub screen: Vec<u8>,
    pub buffer: Vec<u8>,
}

impl PaintCall {
    /// What a core makes of it: its answer, and the whole buffer afterwards.
    pub fn outcome(&self, core: &dyn Core) -> (Painting, Vec<u8>) {
        let mut buffer = self.buffer.clone();
        (core.paint(self.ask, &self.screen, &mut buffer), buffer)
    }
}

/// A call, and whether it is a damaged one.
pub fn call(random: &mut Random) -> (PaintCall, bool) {
    let (h, w) = (rows(random), columns(random));
    let (first, last) = named(random, h);
    let (any_row, any_column) = (random.within(1, h), random.within(0, w));
    let row = random.pick(&[1, h, any_row]);
    let column = random.pick(&[0, w - 1, w, any_column]);
    let screen: Vec<u8> = (0..h * w).map(|_| random.pick(&[32, 126, b'a', b'H', b';', b'[', b'0'])).collect();
    let ask = Ask { h, w, first, last, row, column };
    let needed = bytes(ask, &screen).len();
    let length = match random.below(8) {
        0 | 1 => needed,
        2 => needed - 1,
        3 => needed + 1,
        4 => random.below(needed),
        _ => needed + random.below(40),
    };
    let old = random.draw() as u8;
    // What the buffer held is seen wherever it stays.
    let buffer = (0..length).map(|i| old.wrapping_add(i as u8)).collect();
    let mut call = PaintCall { ask, screen, buffer };
    let times = random.pick(&[0, 1, 1, 2, 0, 1]);
    (0..times).for_each(|_| damage(random, &mut call));
    (call, times > 0)
}

/// None, one, all, or any run of rows.
fn named(random: &mut Random, h: usize) -> (usize, usize) {
    let first = random.within(1, h);
    match random.below(5) {
        0 => (0, 0),
        1 => (first, first),
        2 => (1, h),
        _ => (first, random.within(first, h)),
    }
}

fn damage(random: &mut Random, call: &mut PaintCall) {
    let PaintCall { ask, screen, .. } = call;
    let huge = random.pick(&HUGE);
    match random.weighted(&[1, 1, 1, 1, 1, 1, 1, 1, 1, 6]) {
        // H or W off by one or far off, now and then with a screen that would be right for it.
        0 => ask.h = random.pick(&[ask.h.wrapping_sub(1), ask.h.wrapping_add(1), 0, 64, 65, huge]),
        1 => ask.w = random.pick(&[ask.w.wrapping_sub(1), ask.w.wrapping_add(1), 0, 256, 257, huge]),
        2 => {
            let (h, w) = random.pick(&[(65, 1), (1, 257), (64, 257), (65, 256), (0, 4), (4, 0), (64, 256)]);
            (ask.h, ask.w) = (h, w);
            screen.resize(h * w, 32);
        }
        3 => {
            let length = random.pick(&[screen.len().saturating_sub(1), screen.len() + 1, 0]);
            screen.resize(length, 32);
        }
        // Rows out of order, off the screen, or only one of two zeros.
        4 => (ask.first, ask.last) = (ask.last.wrapping_add(1), ask.first),
        5 => ask.first = random.pick(&[0, ask.last.wrapping_add(1), huge]),
        6 => ask.last = random.pick(&[0, ask.first.wrapping_sub(1), ask.h.wrapping_add(1), huge]),
        7 => ask.row = random.pick(&[0, ask.h.wrapping_add(1), huge]),
        8 => ask.column = random.pick(&[ask.w.wrapping_add(1), ask.w.wrapping_add(2), huge]),
        _ => {
            for _ in 0..random.pick(&[1, 1, 2, 3]).min(screen.len()) {
                let any = random.below(screen.len());
                let at = random.pick(&[0, screen.len() - 1, any, any]);
                screen[at] = random.pick(&BAD);
            }
        }
    }
}
