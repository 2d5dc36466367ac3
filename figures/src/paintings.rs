//! The routine for terminals: both cores must write the same, and then nanoseconds a painting.

use crate::chidukwore::{self, enough, Answer};
use crate::clock::{median, per_turn, BATCHES};
use crate::hand;
use crate::random::Random;
use std::hint::black_box;

/// Both write the same into buffers of so many bytes, and answer the same.
fn assert_same(h: usize, w: usize, answer: Answer, screen: &[u8], room: usize) {
    let (mut proved, mut by_hand) = (vec![0; room], vec![0; room]);
    assert_eq!(chidukwore::paint(h, w, answer, screen, &mut proved), hand::terminal::paint(h, w, answer, screen, &mut by_hand));
    assert_eq!(proved, by_hand);
}

/// Both write the same for any rows and cursor, sound or not, with room or without.
pub fn compare(count: usize) {
    let mut random = Random::new(2);
    for _ in 0..count {
        let (h, w) = (1 + random.below(5), 1 + random.below(12));
        let screen: Vec<u8> = (0..h * w).map(|_| if random.once_in(200) { 10 } else { 32 + random.below(95) as u8 }).collect();
        let [first, last, row] = [0; 3].map(|_| random.below(h + 2));
        let answer = Answer { first, last, row, column: random.below(w + 2), ..Answer::default() };
        assert_same(h, w, answer, &screen, random.below(enough(h, w) + 1));
    }
}

/// One table: all rows named, one, and none. Here too both must write the same.
pub fn measure() {
    println!("ns a painting            screen     proved    by hand   ratio");
    for (h, w) in [(24, 80), (64, 256)] {
        for (name, first, last) in [("all rows", 1, h), ("one row", h, h), ("no row", 0, 0)] {
            let answer = Answer { first, last, row: h, column: w, ..Answer::default() };
            let (screen, mut buffer) = (vec![b'a'; h * w], vec![0; enough(h, w)]);
            assert_same(h, w, answer, &screen, buffer.len());
            let batches: Vec<(f64, f64)> = (0..BATCHES)
                .map(|_| {
                    let proved = per_turn(|| {
                        black_box(chidukwore::paint(h, w, black_box(answer), black_box(&screen), &mut buffer));
                    });
                    let by_hand = per_turn(|| {
                        black_box(hand::terminal::paint(h, w, black_box(answer), black_box(&screen), &mut buffer));
                    });
                    (proved, by_hand)
                })
                .collect();
            let (proved, by_hand) = (median(batches.iter().map(|b| b.0)), median(batches.iter().map(|b| b.1)));
            println!("{name:20} {:>10} {proved:10.0} {by_hand:10.0} {:7.2}", format!("{h}x{w}"), proved / by_hand);
        }
    }
}
