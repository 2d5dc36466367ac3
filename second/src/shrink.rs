//! From an input that shows a difference to the smallest one found that still does: whatever can be left out is left out.

use crate::bytes::{encode, encode_by, record, session, session_by, sizes_fit, sizes_fit_unseen, Record, Stores, NO_MARK};
use crate::calls::{Call, Kind};
use crate::convert::{OLD_QUARTER, OLD_SIDE};
use crate::convert_calls::ConvertCall;
use crate::paint::{bytes, on_screen, Ask};
use crate::paint_calls::PaintCall;
use crate::plain::{Doc, Edited, Editor, NEWLINE, QUARTER};
use crate::walk::Walk;
use crate::window::{policy, virtual_text, window, Offsets};

/// After so many tries nothing differs any more, and what is smallest by then is taken: a try may start the bench program, or go
/// through a store of 65,536 bytes.
fn limited<T: ?Sized>(mut differs: impl FnMut(&T) -> bool) -> impl FnMut(&T) -> bool {
    let mut tries = 0;
    move |input| {
        tries += 1;
        tries < 4_000 && differs(input)
    }
}

/// Leaves out runs of a sequence, first long ones, then short ones, as long as the difference stays.
fn leave_out<T: Clone>(mut items: Vec<T>, mut differs: impl FnMut(&[T]) -> bool) -> Vec<T> {
    let mut run = items.len();
    while run > 0 {
        let mut at = 0;
        while at < items.len() {
            let end = (at + run).min(items.len());
            let rest = [&items[..at], &items[end..]].concat();
            if differs(&rest) {
                items = rest;
            } else {
                at = end;
            }
        }
        run /= 2;
    }
    items
}

/// A walk with fewer keys, less text, a smaller store and a smaller screen. The text comes last: where a line must be as long as it is, each
/// of its bytes is tried in vain.
pub fn walk(mut walk: Walk, differs: impl FnMut(&Walk) -> bool) -> Walk {
    let mut differs = limited(differs);
    loop {
        let before = [walk.keys.len(), walk.text.len(), walk.t, walk.h, walk.w];
        walk.keys = leave_out(walk.keys.clone(), |keys| differs(&Walk { keys: keys.to_vec(), ..walk.clone() }));
        while let Some(smaller) = smaller_sizes(&walk).into_iter().find(&mut differs) {
            walk = smaller;
        }
        let plain = walk.text.iter().map(|byte| if *byte == NEWLINE { NEWLINE } else { b'a' }).collect();
        let plainer = Walk { text: plain, ..walk.clone() };
        if differs(&plainer) {
            walk = plainer;
        }
        walk.text = leave_out(walk.text.clone(), |text| differs(&Walk { text: text.to_vec(), ..walk.clone() }));
        if before == [walk.keys.len(), walk.text.len(), walk.t, walk.h, walk.w] {
            return walk;
        }
    }
}

/// The same walk on a smaller screen or store; or with one key and one byte of the store less, for what shows only where it is full.
fn smaller_sizes(walk: &Walk) -> Vec<Walk> {
    let least = walk.text.len().max(1);
    let mut all: Vec<Walk> = less(walk.t, least).map(|t| Walk { t, ..walk.clone() }).collect();
    all.extend(less(walk.h, 1).map(|h| Walk { h, ..walk.clone() }));
    all.extend(less(walk.w, 1).map(|w| Walk { w, ..walk.clone() }));
    if walk.t > least {
        all.extend((0..walk.keys.len()).map(|i| {
            let mut fewer = Walk { t: walk.t - 1, ..walk.clone() };
            fewer.keys.remove(i);
            fewer
        }));
    }
    all
}

/// Numbers below this one to try: the least, half of it, one less.
fn less(number: usize, least: usize) -> impl Iterator<Item = usize> {
    [least, number / 2, number.saturating_sub(1)].into_iter().filter(move |less| (least..number).contains(less))
}

/// A script with fewer lines, smaller numbers, less text, fewer bytes.
pub fn script(script: Vec<u8>, differs: impl FnMut(&[u8]) -> bool) -> Vec<u8> {
    let mut differs = limited(differs);
    let mut script = lines_left_out(script, &mut differs);
    while let Some(smaller) = smaller_headers(&script).into_iter().find(|smaller| differs(smaller)) {
        script = smaller;
    }
    script = lines_left_out(script, &mut differs);
    if script.len() < 400 {
        script = leave_out(script, &mut differs);
    }
    script
}

fn lines_left_out(script: Vec<u8>, differs: &mut impl FnMut(&[u8]) -> bool) -> Vec<u8> {
    let lines: Vec<Vec<u8>> = script.split_inclusive(|byte| *byte == 10).map(<[u8]>::to_vec).collect();
    leave_out(lines, |lines| differs(&lines.concat())).concat()
}

/// The same script with a smaller number in one header line, or with a shorter text and its length; none where it has no such header.
fn smaller_headers(script: &[u8]) -> Vec<Vec<u8>> {
    let mut parts = script.splitn(5, |byte| *byte == 10);
    let mut values = [0; 4];
    for (value, name) in values.iter_mut().zip(["rows=", "cols=", "store=", "text="]) {
        let digits = parts.next().and_then(|line| std::str::from_utf8(line).ok()).and_then(|line| line.strip_prefix(name));
        match digits.and_then(|digits| digits.parse::<usize>().ok()) {
            Some(number) => *value = number,
            None => return Vec::new(),
        }
    }
    let rest = parts.next().unwrap_or(&[]);
    let [h, w, t, n] = values;
    let write = |h: usize, w: usize, t: usize, text: &[u8], rest: &[u8]| {
        [format!("rows={h}\ncols={w}\nstore={t}\ntext={}\n", text.len()).as_bytes(), text, rest].concat()
    };
    if n > rest.len() {
        return Vec::new();
    }
    let (text, rest) = rest.split_at(n);
    let mut all = Vec::new();
    let mut run = n;
    while run > 0 {
        all.push(write(h, w, t, &text[run..], rest));
        all.push(write(h, w, t, &text[..n - run], rest));
        run /= 2;
    }
    for i in 0..n.min(20) {
        all.push(write(h, w, t, &[&text[..i], &text[i + 1..]].concat(), rest));
    }
    all.extend(less(h, 1).map(|h| write(h, w, t, text, rest)));
    all.extend(less(w, 1).map(|w| write(h, w, t, text, rest)));
    all.extend(less(t, 1).map(|t| write(h, w, t, text, rest)));
    all
}

/// A call with smaller numbers and fewer bytes.
pub fn call(mut call: Call, differs: impl FnMut(&Call) -> bool) -> Call {
    let mut differs = limited(differs);
    loop {
        let least = weight(&call);
        let mut candidates = smaller_states(&call).into_iter().chain(smaller_bytes(&call));
        match candidates.find(|candidate| weight(candidate) < least && differs(candidate)) {
            Some(smaller) => call = smaller,
            None => return call,
        }
    }
}

/// How much there is to read in a call: lengths, bytes that are set, numbers.
fn weight(call: &Call) -> u128 {
    let Stores { text, recall, held, side, screen } = &call.stores;
    let set = |store: &[u8], empty: u8| store.iter().filter(|byte| **byte != empty).count() * 4;
    let bytes = text.len() + recall.len() + held.len() + side.len() + screen.len();
    let texts = set(text, 0) + set(recall, 0) + set(held, 0) + set(side, 0) + set(screen, 32);
    let mut kind = call.kind;
    let mut mark = 0;
    if let Kind::Key { record, .. } = &mut kind {
        // No mark is less than any, whatever its number.
        mark = record.mark.wrapping_sub(NO_MARK) as u128;
        record.mark = 0;
    }
    let numbers: u128 = numbers(&mut kind).into_iter().map(|number| *number as u128).sum();
    (bytes + texts) as u128 + numbers + mark
}

/// Where record and stores are a session: the same key on smaller states.
fn smaller_states(call: &Call) -> Vec<Call> {
    let Kind::Key { record: given, numbers } = call.kind else {
        return Vec::new();
    };
    let (h, w, t) = (given.rows, given.columns, call.stores.text.len());
    if !sizes_fit(&call.stores, h, w) {
        return Vec::new();
    }
    let Some(editor) = session(&given, &call.stores) else {
        return Vec::new();
    };
    // The lent screen may matter, so it stays where it still fits.
    let make = |editor: &Editor, t: usize, h: usize, w: usize, from: Offsets| {
        let seen = virtual_text(editor);
        let at = policy(&seen, from, h, w);
        let (text, recall, held, side) = encode(editor, t);
        let same = (h, w) == (given.rows, given.columns);
        let screen = if same { call.stores.screen.clone() } else { window(&seen, at, h, w) };
        Call { kind: Kind::Key { record: record(editor, at, h, w), numbers }, stores: Stores { text, recall, held, side, screen } }
    };
    let here = Offsets { r: given.top, c: given.left };
    let mut all = vec![make(&editor, t, h, w, Offsets::default())];
    let texts = parts(&editor);
    for (i, text) in texts.iter().enumerate() {
        let mut shorter = |text: Vec<u8>| {
            let mut texts = texts.clone();
            texts[i] = text;
            for editor in assembled(&editor, texts) {
                all.extend(less(t, used(&editor)).chain([t]).map(|t| make(&editor, t, h, w, here)));
            }
        };
        let mut run = text.len();
        while run > 0 {
            shorter(text[run..].to_vec());
            shorter(text[..text.len() - run].to_vec());
            run /= 2;
        }
        for j in 0..text.len().min(12) {
            shorter([&text[..j], &text[j + 1..]].concat());
        }
    }
    all.extend(marks(&editor).into_iter().map(|mark| make(&Editor { mark, ..editor.clone() }, t, h, w, here)));
    all.extend(less(t, used(&editor)).map(|t| make(&editor, t, h, w, here)));
    all.extend(less(h, 1).map(|h| make(&editor, t, h, w, here)));
    all.extend(less(w, 1).map(|w| make(&editor, t, h, w, here)));
    all
}

/// The least T that this state fits into.
fn used(editor: &Editor) -> usize {
    [&editor.main.text, &editor.main.recall, &editor.held].map(Doc::length).into_iter().fold(1, usize::max)
}

/// No mark, and marks further to the left.
fn marks(editor: &Editor) -> Vec<Option<usize>> {
    editor.mark.map_or(Vec::new(), |mark| [None].into_iter().chain(less(mark, 0).map(Some)).collect())
}

/// The thirteen texts of a state, in the record's order.
fn parts(editor: &Editor) -> Vec<Vec<u8>> {
    let docs = [&editor.main.text, &editor.quoted.text, &editor.main.recall, &editor.quoted.recall, &editor.replacement];
    let halves = |doc: &Doc| [doc.l.clone(), doc.r.iter().copied().collect()];
    let mut parts: Vec<Vec<u8>> = docs.into_iter().flat_map(halves).collect();
    parts.push(editor.pattern.clone());
    parts.extend(halves(&editor.held));
    parts
}

/// The state with these texts. Where the document is shorter now, the mark may have been left or right of what went.
fn assembled(editor: &Editor, parts: Vec<Vec<u8>>) -> Vec<Editor> {
    let doc = |i: usize| Doc::new(&parts[i], &parts[i + 1]);
    let mut shorter = Editor {
        main: Edited { text: doc(0), recall: doc(4) },
        quoted: Edited { text: doc(2), recall: doc(6) },
        replacement: doc(8),
        pattern: parts[10].clone(),
        held: doc(11),
        ..editor.clone()
    };
    let end = shorter.main.text.length();
    let gone = editor.main.text.length() - end;
    shorter.mark = editor.mark.map(|mark| mark.min(end));
    let moved = Editor { mark: editor.mark.map(|mark| mark.saturating_sub(gone)), ..shorter.clone() };
    if moved == shorter {
        vec![shorter]
    } else {
        vec![shorter, moved]
    }
}

/// All numbers of a call: those of the opening, or the record's 19 and the key's.
fn numbers(kind: &mut Kind) -> Vec<&mut usize> {
    match kind {
        Kind::Open { n, h, w } => vec![n, h, w],
        Kind::Key { record, numbers } => {
            record.fields().into_iter().chain([&mut numbers.a, &mut numbers.b, &mut numbers.c]).collect()
        }
    }
}

/// Any call: smaller numbers one by one, texts emptied with their lengths, bytes taken out of the stores.
fn smaller_bytes(call: &Call) -> Vec<Call> {
    let mut all = Vec::new();
    let mut with = |change: &dyn Fn(&mut Call)| {
        let mut smaller = call.clone();
        change(&mut smaller);
        all.push(smaller);
    };
    let values: Vec<usize> = numbers(&mut call.kind.clone()).into_iter().map(|number| *number).collect();
    for (i, value) in values.iter().enumerate() {
        for smaller in less(*value, 0) {
            with(&|call| *numbers(&mut call.kind)[i] = smaller);
        }
    }
    with(&|call| call.stores.screen.fill(32));
    if let Kind::Key { .. } = call.kind {
        let zero = |call: &mut Call, lengths: [usize; 2]| lengths.iter().for_each(|i| *numbers(&mut call.kind)[*i] = 0);
        with(&|call| (call.stores.text.fill(0), zero(call, [0, 1])).1);
        with(&|call| (call.stores.recall.fill(0), zero(call, [4, 5])).1);
        with(&|call| (call.stores.held.fill(0), zero(call, [16, 17])).1);
        with(&|call| *numbers(&mut call.kind)[18] = NO_MARK);
        for (quarter, lengths) in [[2, 3], [6, 7], [10, 10], [8, 9]].into_iter().enumerate() {
            with(&|call| {
                call.stores.side.chunks_mut(QUARTER).skip(quarter).take(1).for_each(|area| area.fill(0));
                zero(call, lengths);
            });
        }
    }
    // Out of the middle of the text store, where a gap is; the two stores of its length follow.
    for t in less(call.stores.text.len(), 0) {
        with(&|Call { stores, .. }| {
            stores.text.drain(t / 2..t / 2 + stores.text.len() - t);
            stores.recall.truncate(t);
            stores.held.truncate(t);
        });
    }
    let set = |store: &[u8]| (0..store.len()).filter(|i| store[*i] != 0).take(16).collect::<Vec<_>>();
    set(&call.stores.text).into_iter().for_each(|i| with(&|call| call.stores.text[i] = 0));
    set(&call.stores.recall).into_iter().for_each(|i| with(&|call| call.stores.recall[i] = 0));
    set(&call.stores.held).into_iter().for_each(|i| with(&|call| call.stores.held[i] = 0));
    set(&call.stores.side).into_iter().for_each(|i| with(&|call| call.stores.side[i] = 0));
    all
}

/// A painting with smaller numbers and fewer bytes.
pub fn painting(mut call: PaintCall, differs: impl FnMut(&PaintCall) -> bool) -> PaintCall {
    let mut differs = limited(differs);
    while let Some(smaller) = smaller_paintings(&call).into_iter().find(&mut differs) {
        call = smaller;
    }
    call
}

fn smaller_paintings(call: &PaintCall) -> Vec<PaintCall> {
    let Ask { h, w, first, last, row, column } = call.ask;
    let mut all = Vec::new();
    if on_screen(call.ask, &call.screen) {
        // As many bytes too many or too few in the buffer as there were.
        let needed = bytes(call.ask, &call.screen).len();
        let mut cut = |ask: Ask, screen: Vec<u8>| {
            let length = (call.buffer.len() + bytes(ask, &screen).len()).saturating_sub(needed);
            all.push(PaintCall { ask, screen, buffer: call.buffer[..length].to_vec() });
        };
        for h in less(h, 1) {
            cut(Ask { h, first: first.min(h), last: last.min(h), row: row.min(h), ..call.ask }, call.screen[..h * w].to_vec());
        }
        for less in less(w, 1) {
            let cells = call.screen.chunks(w).flat_map(|cells| &cells[..less]).copied().collect();
            cut(Ask { w: less, column: column.min(less), ..call.ask }, cells);
        }
        for first in less(last, first) {
            cut(Ask { last: first, ..call.ask }, call.screen.clone());
        }
    }
    let numbers = [row, column, first, last, h, w, call.screen.len(), call.buffer.len()];
    for (i, number) in numbers.into_iter().enumerate() {
        for number in less(number, 0) {
            let mut smaller = call.clone();
            let Ask { h, w, first, last, row, column } = &mut smaller.ask;
            match i {
                6 => smaller.screen.truncate(number),
                7 => smaller.buffer.truncate(number),
                _ => *[row, column, first, last, h, w][i] = number,
            }
            all.push(smaller);
        }
    }
    for at in (0..call.screen.len()).filter(|at| call.screen[*at] != 32).take(16) {
        let mut smaller = call.clone();
        smaller.screen[at] = 32;
        all.push(smaller);
    }
    all
}

/// A stream with fewer bytes.
pub fn stream(stream: Vec<u8>, differs: impl FnMut(&[u8]) -> bool) -> Vec<u8> {
    leave_out(stream, limited(differs))
}

/// A conversion with fewer keys, smaller numbers and fewer bytes.
pub fn conversion(mut call: ConvertCall, differs: impl FnMut(&ConvertCall) -> bool) -> ConvertCall {
    let mut differs = limited(differs);
    call.keys = leave_out(call.keys.clone(), |keys| differs(&ConvertCall { keys: keys.to_vec(), ..call.clone() }));
    loop {
        let least = old_weight(&call);
        let mut candidates = smaller_conversions(&call).into_iter();
        match candidates.find(|candidate| old_weight(candidate) < least && differs(candidate)) {
            Some(smaller) => call = smaller,
            None => return call,
        }
    }
}

fn old_weight(call: &ConvertCall) -> u128 {
    let set = |store: &[u8]| store.iter().filter(|byte| **byte != 0).count() * 4 + store.len();
    let Stores { text, recall, held, side, .. } = &call.old;
    let bytes = [text, recall, held, side, &call.side].map(|store| set(store)).iter().sum::<usize>();
    let mut record = Record { mark: call.record.mark.wrapping_add(1), ..call.record };
    bytes as u128 + record.fields().iter().map(|number| **number as u128).sum::<u128>()
}

/// Where the old stores are a session: smaller states. And anything: smaller numbers, fewer bytes.
fn smaller_conversions(call: &ConvertCall) -> Vec<ConvertCall> {
    let ConvertCall { record: given, old, .. } = call;
    let (h, w, t) = (given.rows, given.columns, old.text.len());
    let mut all = Vec::new();
    let mut zeros = call.clone();
    zeros.side.fill(0);
    all.push(zeros);
    let sound = sizes_fit_unseen(old, h, w, OLD_SIDE).then(|| session_by(given, old, OLD_QUARTER)).flatten();
    if let Some(editor) = sound {
        let mut make = |editor: &Editor| {
            let at = policy(&virtual_text(editor), Offsets::default(), h, w);
            for t in less(t, used(editor)).chain([t]) {
                let (text, recall, held, side) = encode_by(editor, t, OLD_QUARTER);
                let old = Stores { text, recall, held, side, screen: Vec::new() };
                all.push(ConvertCall { record: record(editor, at, h, w), old, ..call.clone() });
            }
        };
        let texts = parts(&editor);
        for (i, text) in texts.iter().enumerate() {
            for length in less(text.len(), 0) {
                let mut texts = texts.clone();
                texts[i].truncate(length);
                assembled(&editor, texts).iter().for_each(&mut make);
            }
        }
        make(&editor);
    }
    // Texts emptied with their lengths: those of the three stores, where the cursor is at the beginning then, and those of the quarters.
    let mut with = |change: &dyn Fn(&mut ConvertCall)| {
        let mut smaller = call.clone();
        change(&mut smaller);
        all.push(smaller);
    };
    with(&|ConvertCall { record, old, .. }| {
        old.text.fill(0);
        *record = Record { l: 0, r: 0, top: 0, left: 0, mark: NO_MARK, ..*record };
    });
    with(&|ConvertCall { record, old, .. }| (old.recall.fill(0), (record.rl, record.rr) = (0, 0)).1);
    with(&|ConvertCall { record, old, .. }| (old.held.fill(0), (record.held_left, record.held_right) = (0, 0)).1);
    for (quarter, lengths) in [[2, 3], [6, 7], [10, 10], [8, 9]].into_iter().enumerate() {
        with(&|ConvertCall { record, old, .. }| {
            old.side.chunks_mut(OLD_QUARTER).skip(quarter).take(1).for_each(|area| area.fill(0));
            lengths.iter().for_each(|i| *record.fields()[*i] = 0);
        });
    }
    for t in less(t, 0) {
        with(&|ConvertCall { old, .. }| {
            old.text.drain(t / 2..t / 2 + old.text.len() - t);
            old.recall.truncate(t);
            old.held.truncate(t);
        });
    }
    let values = { *given }.fields().map(|value| *value);
    for (i, value) in values.into_iter().enumerate() {
        for smaller in less(value, 0).chain((i == 18).then_some(NO_MARK)) {
            let mut with = call.clone();
            *with.record.fields()[i] = smaller;
            all.push(with);
        }
    }
    for store in 0..4 {
        let stores = |call: &ConvertCall| [&call.old.text, &call.old.recall, &call.old.held, &call.old.side][store].clone();
        for at in stores(call).iter().enumerate().filter(|(_, byte)| **byte != 0).map(|(at, _)| at).take(16) {
            let mut with = call.clone();
            let Stores { text, recall, held, side, .. } = &mut with.old;
            [text, recall, held, side][store][at] = 0;
            all.push(with);
        }
    }
    all
}
