//! Writes one script that can be read to its end, for programs that play scripts: second-script SEED NUMBER [ROWS COLUMNS]
//! Without rows and columns the script has a size of its own.

use second::random::Random;
use second::unreadable::Script;
use second::{generate, walk};
use std::io::{self, Write};

fn main() -> io::Result<()> {
    let numbers: Vec<usize> = std::env::args().skip(1).filter_map(|word| word.parse().ok()).collect();
    let (seed, number, size) = match numbers[..] {
        [seed, number] => (seed, number, None),
        [seed, number, h, w] => (seed, number, Some((h, w))),
        _ => return Err(io::Error::other("second-script SEED NUMBER [ROWS COLUMNS]")),
    };
    let mut random = Random::new(seed as u64, number as u64);
    // A large screen gets a text that fills some of it.
    let large = size.is_some_and(|(h, w)| h * w > 1_000);
    let t = if large { random.within(1_000, 4_096) } else { generate::store(&mut random) };
    let mut walk = walk::walk(&mut random, t);
    (walk.h, walk.w) = size.unwrap_or((walk.h, walk.w));
    io::stdout().write_all(&Script::of(&walk).bytes())
}
