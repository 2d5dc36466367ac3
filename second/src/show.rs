//! Inputs and outcomes as a person reads them.

use crate::bytes::{Record, Stores, NO_MARK};
use crate::calls::{Call, Kind};
use crate::convert::OLD_QUARTER;
use crate::convert_calls::{ConvertCall, Converted};
use crate::core::Reply;
use crate::keyboard::Heard;
use crate::paint::Painting;
use crate::paint_calls::PaintCall;
use crate::plain::QUARTER;

/// A script, with odd bytes so that `printf %b` gives it back.
pub fn script(bytes: &[u8]) -> String {
    let plain = |byte: &u8| *byte == b'\n' || (32..=126).contains(byte) && *byte != b'\\';
    if bytes.iter().all(plain) {
        return String::from_utf8_lossy(bytes).into_owned();
    }
    let shown = bytes.iter().map(|byte| match byte {
        byte if plain(byte) => (*byte as char).to_string(),
        byte => format!("\\0{byte:03o}"),
    });
    format!("(for printf %b)\n{}", shown.collect::<String>())
}

/// The first line in which two outputs differ, with a few before and after it.
pub fn from_the_first_difference(a: &[u8], b: &[u8]) -> (String, String) {
    let lines = |output: &[u8]| output.split_inclusive(|byte| *byte == b'\n').map(<[u8]>::to_vec).collect::<Vec<_>>();
    let (a, b) = (lines(a), lines(b));
    let same = a.iter().zip(&b).take_while(|(a, b)| a == b).count();
    let part = |lines: &[Vec<u8>]| {
        let part: Vec<Vec<u8>> = lines.iter().skip(same.saturating_sub(10)).take(20).cloned().collect();
        script(&part.concat())
    };
    (part(&a), part(&b))
}

/// Bytes as a text, with long runs counted.
fn bytes(bytes: &[u8]) -> String {
    let runs = bytes.chunk_by(|a, b| a == b).map(|run| {
        let one = run[0].escape_ascii().to_string();
        if run.len() > 4 {
            format!("{{{one} x {}}}", run.len())
        } else {
            one.repeat(run.len())
        }
    });
    format!("\"{}\" ({} bytes)", runs.collect::<String>(), bytes.len())
}

/// The stores, the side store by its quarters; one that is too long has a fifth.
fn areas(stores: &Stores, quarter: usize) -> Vec<(&str, &[u8])> {
    let names = ["quotation", "its recall", "pattern", "replacement", "more"];
    let mut areas =
        vec![("text", &stores.text[..]), ("recall", &stores.recall), ("held", &stores.held), ("screen", &stores.screen)];
    areas.extend(names.into_iter().zip(stores.side.chunks(quarter)));
    areas
}

fn line((name, area): &(&str, &[u8])) -> String {
    format!("  {name:<11} {}\n", bytes(area))
}

fn numbers(mut record: Record) -> String {
    let lengths = ["l", "r", "ql", "qr", "rl", "rr", "qrl", "qrr", "xl", "xr", "pl"];
    let others = ["mode", "top", "left", "rows", "columns", "held_left", "held_right", "mark"];
    let shown = lengths.iter().chain(&others).zip(record.fields()).map(|(name, value)| match *value {
        NO_MARK if *name == "mark" => " mark=none".into(),
        value => format!(" {name}={value}"),
    });
    format!("  record     {}\n", shown.collect::<String>())
}

/// A call; quarters of zeros are left out.
pub fn call(call: &Call) -> String {
    let head = match call.kind {
        Kind::Open { n, h, w } => format!("  open        n={n} rows={h} columns={w}\n"),
        Kind::Key { record, numbers: key } => {
            format!("  key         kind={} a={} b={} c={}\n{}", key.kind, key.a, key.b, key.c, numbers(record))
        }
    };
    let shown = areas(&call.stores, QUARTER).into_iter().filter(|(_, area)| *area != [0; QUARTER]);
    head + &shown.map(|area| line(&area)).collect::<String>()
}

/// The answer, the record, and what the call changed in the stores.
pub fn outcome(call: &Call, (reply, after): &(Reply, Stores)) -> String {
    let (before, after) = (areas(&call.stores, QUARTER), areas(after, QUARTER));
    let changed = after.into_iter().zip(before).filter(|(now, before)| now != before);
    let head = format!("  {:?}\n{}", reply.answer, numbers(reply.record));
    head + &changed.map(|(now, _)| line(&now)).collect::<String>()
}

/// A call of the routine for terminals.
pub fn painting(call: &PaintCall) -> String {
    let head = format!("  {:?}\n", call.ask);
    head + &line(&("screen", &call.screen)) + &line(&("buffer", &call.buffer))
}

/// Its answer, and the whole buffer.
pub fn painted((painting, buffer): &(Painting, Vec<u8>)) -> String {
    format!("  {painting:?}\n") + &line(&("buffer", buffer))
}

/// A conversion; old quarters of zeros are left out.
pub fn conversion(call: &ConvertCall) -> String {
    let head = format!("  keys        {:?}\n{}", call.keys, numbers(call.record));
    let empty = |area: &[u8]| area.iter().all(|byte| *byte == 0) && area.len() == OLD_QUARTER || area.is_empty();
    let old = areas(&call.old, OLD_QUARTER).into_iter().filter(|(_, area)| !empty(area));
    let lengths = format!("  old side    {} bytes\n", call.old.side.len());
    head + &old.map(|area| line(&area)).collect::<String>() + &lengths + &line(&("new side", &call.side))
}

/// The reply, the new side store by its quarters, and the answers to the keys.
pub fn converted(converted: &Converted) -> String {
    let Converted { reply, side, after } = converted;
    let head = format!("  {:?}\n{}", reply.answer, numbers(reply.record));
    let quarters = side.chunks(QUARTER).map(|quarter| line(&("new side", quarter))).collect::<String>();
    let keys = after.iter().map(|(reply, stores)| {
        let changed = areas(stores, QUARTER).iter().map(line).collect::<String>();
        format!("  {:?}\n{}{changed}", reply.answer, numbers(reply.record))
    });
    head + &quarters + &keys.collect::<String>()
}

/// Bytes received.
pub fn input(bytes: &[u8]) -> String {
    format!("\"{}\"", bytes.escape_ascii())
}

/// What a stream is read as.
pub fn reading((heard, waiting): &(Vec<Heard>, Vec<u8>)) -> String {
    let lines = heard.iter().map(|heard| format!("  {heard:?}\n")).collect::<String>();
    format!("{lines}  waiting for more: {}\n", input(waiting))
}
