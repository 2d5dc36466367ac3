//! Compares the proved core with one written by hand, first in what they do, then in how long a key takes, and prints one table.

#[path = "../../host/rust/chidukwore.rs"]
mod chidukwore;
mod clock;
mod hand;
mod limit;
mod paintings;
mod proved;
mod random;
mod scenes;
mod stores;
mod table;
mod walk;

use table::{Row, HEAD, LARGE, SMALL};

fn main() {
    let counts = walk::compare(400);
    println!("equal on random walks: calls by code {:?}, accepted with the bell {}\n", counts.codes, counts.bells);
    println!("{HEAD}");
    let mut missed = 0;
    for (h, w) in [(24, 80), (64, 256)] {
        for (small, large) in scenes::all(SMALL, h, w).into_iter().zip(scenes::all(LARGE, h, w)) {
            let (name, screen) = (small.name, format!("{h}x{w}"));
            let [small, large] = clock::measure(&[small, large]);
            let rows = [
                Row { name, t: SMALL, screen: screen.clone(), figures: small, small: None },
                Row { name, t: LARGE, screen, figures: large, small: Some(small.proved) },
            ];
            for row in rows {
                println!("{row}");
                missed += row.misses().len();
            }
        }
    }
    println!("\ntargets missed: {missed}\n");
    paintings::compare(20_000);
    paintings::measure();
}
