//! Nanoseconds a key: medians over many short batches that take turns, so that noise hits all alike.

use crate::chidukwore::Record;
use crate::scenes::Scene;
use crate::stores::Stores;
use crate::{hand, limit, proved};
use std::hint::black_box;
use std::time::{Duration, Instant};

/// Batches of each kind, and how long one goes on at least.
pub const BATCHES: usize = 101;
const LEAST: Duration = Duration::from_micros(100);

#[derive(Clone, Copy)]
pub struct Figures {
    pub proved: f64,
    pub hand: f64,
    pub limit: f64,
}

/// Both scenes in turns too, since one is to be compared with the other.
pub fn measure(scenes: &[Scene; 2]) -> [Figures; 2] {
    let mut batches = [const { Vec::new() }; 2];
    for _ in 0..BATCHES {
        for (scene, batches) in scenes.iter().zip(&mut batches) {
            batches.push(batch(scene));
        }
    }
    batches.map(|batches| Figures {
        proved: median(batches.iter().map(|figures| figures.proved)),
        hand: median(batches.iter().map(|figures| figures.hand)),
        limit: median(batches.iter().map(|figures| figures.limit)),
    })
}

fn batch(scene: &Scene) -> Figures {
    let mut stores = scene.stores.clone();
    let proved = pressed(scene, &mut stores, |mut record, stores| {
        for &key in &scene.keys {
            record = proved::key(black_box(record), black_box(key), stores).record;
        }
        black_box(record);
    });
    let hand = pressed(scene, &mut stores, |mut record, stores| {
        for &key in &scene.keys {
            record = hand::key(black_box(record), black_box(key), stores.lent()).record;
        }
        black_box(record);
    });
    let limit = per_turn(|| {
        black_box(limit::over(black_box(&stores)));
    });
    Figures { proved, hand, limit }
}

/// Nanoseconds a key of the scene's list. Every turn begins with the scene's session; the time that restoring takes is not counted.
fn pressed(scene: &Scene, stores: &mut Stores, mut list: impl FnMut(Record, &mut Stores)) -> f64 {
    let (mut spent, mut turns) = (Duration::ZERO, 0);
    while spent < LEAST {
        stores.clone_from(&scene.stores);
        let start = Instant::now();
        list(scene.record, stores);
        spent += start.elapsed();
        turns += 1;
    }
    spent.as_nanos() as f64 / (turns * scene.keys.len()) as f64
}

pub fn per_turn(mut turn: impl FnMut()) -> f64 {
    let (start, mut turns) = (Instant::now(), 0);
    while start.elapsed() < LEAST {
        turn();
        turns += 1;
    }
    start.elapsed().as_nanos() as f64 / f64::from(turns)
}

pub fn median(times: impl Iterator<Item = f64>) -> f64 {
    let mut times: Vec<f64> = times.collect();
    times.sort_by(f64::total_cmp);
    times[times.len() / 2]
}
