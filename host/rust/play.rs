//! Plays a script of the bench program on a real terminal: writes the bytes that the terminal is sent.
//!
//! play SCRIPT            in a terminal that is as large as the script's screen
//! play --frames SCRIPT   for a program that drives one: before the bytes of each call stands a line with their number, 0 for a refusal
//!
//! SCRIPT is a file, or - for standard input.

mod chidukwore;
mod script;

use chidukwore::{enough, Answer, Record, Reply, Stores, SIDE};
use script::Script;
use std::io::{self, Read, Write};

/// The stores, the record and the buffer, handed on from call to call.
struct Bench {
    text: Vec<u8>,
    recall: Vec<u8>,
    held: Vec<u8>,
    side: Vec<u8>,
    screen: Vec<u8>,
    buffer: Vec<u8>,
    record: Record,
    frames: bool,
}

impl Bench {
    fn lent(&mut self) -> Stores<'_> {
        let Bench { text, recall, held, side, screen, .. } = self;
        Stores { text, recall, held, side, screen }
    }

    /// Hands the record on, and writes what this call has to show.
    fn send(&mut self, Reply { answer, record }: Reply) -> io::Result<()> {
        self.record = record;
        let count = if answer.code == 0 { self.paint(answer) } else { 0 };
        let mut out = io::stdout().lock();
        if self.frames {
            writeln!(out, "{count}")?;
        }
        out.write_all(&self.buffer[..count])?;
        out.flush()
    }

    fn paint(&mut self, answer: Answer) -> usize {
        let painting = chidukwore::paint(self.record.rows, self.record.columns, answer, &self.screen, &mut self.buffer);
        assert_eq!(painting.code, 0, "screen and answer are the core's own, and the buffer is large enough");
        painting.count
    }
}

fn play(script: &Script, frames: bool) -> Result<(), String> {
    let Script { rows, columns, store, .. } = *script;
    // A screen larger than any is refused whatever is lent.
    let (h, w) = if rows <= 64 && columns <= 256 { (rows, columns) } else { (0, 0) };
    let (recall, held, side) = (vec![0; store], vec![0; store], vec![0; SIDE]);
    let (screen, buffer) = (vec![0; h * w], vec![0; enough(h, w)]);
    let mut bench = Bench { text: script.text.clone(), recall, held, side, screen, buffer, record: Record::default(), frames };
    bench.text.resize(store, 0);
    let unwritten = |error: io::Error| error.to_string();

    let reply = chidukwore::open(script.text.len(), rows, columns, bench.lent());
    if reply.answer.code != 0 {
        let Answer { code, place, .. } = reply.answer;
        return Err(format!("the opening is refused with code {code}, place {place}"));
    }
    bench.send(reply).map_err(unwritten)?;
    for key in &script.keys {
        let reply = chidukwore::key(bench.record, *key, bench.lent());
        bench.send(reply).map_err(unwritten)?;
    }
    Ok(())
}

fn bytes_of(file: &str) -> io::Result<Vec<u8>> {
    if file != "-" {
        return std::fs::read(file);
    }
    let mut bytes = Vec::new();
    io::stdin().read_to_end(&mut bytes)?;
    Ok(bytes)
}

fn main() {
    let words: Vec<String> = std::env::args().skip(1).collect();
    let (frames, file) = match words.iter().map(String::as_str).collect::<Vec<_>>()[..] {
        ["--frames", file] => (true, file),
        [file] if file != "--frames" => (false, file),
        _ => stop("usage: play [--frames] SCRIPT".into()),
    };
    let bytes = bytes_of(file).unwrap_or_else(|error| stop(format!("{file}: {error}")));
    let script = script::read(&bytes).unwrap_or_else(|line| stop(format!("line {line} of the script cannot be read")));
    play(&script, frames).unwrap_or_else(|problem| stop(problem));
}

fn stop(problem: String) -> ! {
    eprintln!("play: {problem}");
    std::process::exit(1)
}
