//! The comparison of the keys in the bytes that terminals send: single inputs, streams however they are cut, and walks whose keys arrive as
//! bytes and are pressed.

use crate::bytes::Stores;
use crate::calls::{Call, Kind};
use crate::compare::{both, report_call, Codes, Counts};
use crate::core::{numbers_of, Core, Numbers, Second};
use crate::keyboard::{self, Heard, SEQUENCE};
use crate::random::Random;
use crate::streams;
use crate::walk::Walk;
use crate::{show, shrink};

/// A stream's keys and refusals, and the bytes for which more is needed.
type Reading = (Vec<Heard>, Vec<u8>);

/// Compares the short inputs, many of them also with a tail, this many streams, and a walk for every fifty. Gives the report of the first difference.
pub fn streams(core: &dyn Core, seed: u64, count: u64, counts: &mut Counts) -> Result<(), String> {
    if count == 0 {
        return Ok(());
    }
    // Streams of numbers behind those of the conversions.
    let stream = |i: u64| Random::new(!seed, (1 << 41) + i);
    let mut random = stream(0);
    for input in streams::short() {
        let waits = streams::begins_longer(&input);
        let tail = (waits || random.percent(20)).then(|| [&input[..], &streams::tail(&mut random)].concat());
        for input in [input].into_iter().chain(tail) {
            let heard = core.receive(&input);
            if heard != Second.receive(&input) {
                return Err(format!("seed {seed}, a short input\n{}", report_input(core, &input)));
            }
            counts.heard.count(&heard);
        }
    }
    for i in 1..=count {
        let bytes = streams::stream(&mut stream(2 * i));
        match one_reading(core, &bytes) {
            Some(reading) => reading.0.iter().for_each(|heard| counts.heard.count(heard)),
            None => return Err(format!("seed {seed}, stream {i}\n{}", report_stream(core, bytes))),
        }
        if i % 50 == 0 {
            sent(core, &mut stream(2 * i + 1), counts).map_err(|report| format!("seed {seed}, sent walk {i}\n{report}"))?;
        }
    }
    Ok(())
}

/// Keys, refusals, and inputs for which more is needed.
#[derive(Default)]
pub struct HeardCounts {
    pub keys: usize,
    pub refused: usize,
    pub more: usize,
}

impl HeardCounts {
    fn count(&mut self, heard: &Heard) {
        match *heard {
            Heard { code: SEQUENCE, .. } => self.refused += 1,
            Heard { used: 0, .. } => self.more += 1,
            _ => self.keys += 1,
        }
    }
}

/// As a host reads: it keeps what is not used, and asks until more is needed. An answer that no host could go on from ends it.
fn read(core: &dyn Core, pieces: &[&[u8]]) -> Reading {
    let (mut reading, mut waiting) = (Vec::new(), Vec::new());
    for piece in pieces {
        waiting.extend_from_slice(piece);
        loop {
            let heard = core.receive(&waiting);
            if heard == Heard::default() {
                break;
            }
            reading.push(heard);
            if heard.used == 0 || heard.used > waiting.len() {
                return (reading, waiting);
            }
            waiting.drain(..heard.used);
        }
    }
    (reading, waiting)
}

/// What this program reads, by its own reading of pieces.
fn ours(pieces: &[&[u8]]) -> Reading {
    let (reading, waiting) = keyboard::read(pieces);
    (reading.into_iter().map(Heard::from).collect(), waiting)
}

/// The reading of a stream, if both programs have the same one however it arrives.
fn one_reading(core: &dyn Core, stream: &[u8]) -> Option<Reading> {
    let whole = ours(&[stream]);
    let same = |pieces: &Vec<&[u8]>| read(core, pieces) == whole && ours(pieces) == whole;
    streams::arrivals(stream).iter().all(same).then_some(whole)
}

/// A walk that arrives as bytes: its keys and no others are heard, and both programs do the same with them.
fn sent(core: &dyn Core, random: &mut Random, counts: &mut Counts) -> Result<(), String> {
    let (walk, stream) = streams::sent(random);
    let pieces = streams::pieces(random, &stream);
    let reading = read(core, &pieces);
    if reading != ours(&pieces) {
        return Err(report_stream(core, stream));
    }
    reading.0.iter().for_each(|heard| counts.heard.count(heard));
    let heard = reading.0.iter().filter(|heard| heard.code == 0).map(|heard| heard.numbers());
    let heard: Vec<Numbers> = heard.collect();
    if heard != walk.keys.iter().map(|key| numbers_of(*key)).collect::<Vec<_>>() || !reading.1.is_empty() {
        return Err(format!("the bytes of other keys than were sent:\n{}\n{:?}\n", stream.escape_ascii(), walk.keys));
    }
    press(core, &walk, &heard, &mut counts.sent).map_err(|call| {
        let smallest = shrink::call(*call, |call| both(core, call, &mut Codes::default()).is_none());
        report_call(core, &smallest)
    })
}

fn press(core: &dyn Core, walk: &Walk, keys: &[Numbers], codes: &mut Codes) -> Result<(), Box<Call>> {
    let Walk { h, w, t, ref text, .. } = *walk;
    let mut stores = Stores::zeros(t, h, w);
    stores.text[..text.len()].copy_from_slice(text);
    let mut call = Call { kind: Kind::Open { n: text.len(), h, w }, stores };
    for numbers in keys {
        let Some((reply, stores)) = both(core, &call, codes) else {
            return Err(Box::new(call));
        };
        call = Call { kind: Kind::Key { record: reply.record, numbers: *numbers }, stores };
    }
    both(core, &call, codes).map(|_| ()).ok_or(Box::new(call))
}

fn report_input(core: &dyn Core, input: &[u8]) -> String {
    let (theirs, ours) = (core.receive(input), Second.receive(input));
    format!("bytes received:\n  {}\n-- the core:\n  {theirs:?}\n-- the second program:\n  {ours:?}\n", show::input(input))
}

/// The fewest bytes that are read differently, and the first arrival of which that is so.
fn report_stream(core: &dyn Core, stream: Vec<u8>) -> String {
    let stream = shrink::stream(stream, |stream| one_reading(core, stream).is_none());
    let whole = ours(&[&stream]);
    let arrivals = streams::arrivals(&stream);
    let different = |pieces: &&Vec<&[u8]>| read(core, pieces) != whole || ours(pieces) != whole;
    let Some(pieces) = arrivals.iter().find(different) else {
        return format!("a stream whose pieces are read differently, but not by themselves:\n  {}\n", show::input(&stream));
    };
    let arrived: Vec<String> = pieces.iter().map(|piece| show::input(piece)).collect();
    let [theirs, ours, whole] = [read(core, pieces), ours(pieces), whole].map(|reading| show::reading(&reading));
    let arrived = arrived.join(", ");
    format!(
        "a stream:\n  {arrived}\n-- the core:\n{theirs}-- the second program:\n{ours}-- the second program, read whole:\n{whole}"
    )
}
