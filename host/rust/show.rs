//! Opens the deck in a file and presses some keys, the last ones from bytes as a terminal sends them. Prints what each call answers and the
//! bytes that a terminal is sent then, and at the end the document.

mod chidukwore;

use chidukwore::{
    insert, Answer, Heard, Key, OldStores, Record, Reply, Stores, CUT, FIND, MARK, NEWLINE, OLD_SIDE, PASTE, QUOTE, RECALL, SIDE, TAB,
};
use std::process::ExitCode;

const T: usize = 16;
const ROWS: usize = 2;
const COLUMNS: usize = 4;

/// The stores and the record, handed on from call to call.
struct Bench {
    text: [u8; T],
    recall: [u8; T],
    held: [u8; T],
    side: [u8; SIDE],
    screen: [u8; ROWS * COLUMNS],
    record: Record,
    /// Bytes that came from a terminal and wait for more.
    waiting: Vec<u8>,
}

impl Bench {
    fn lent(&mut self) -> Stores<'_> {
        let Bench { text, recall, held, side, screen, .. } = self;
        Stores { text, recall, held, side, screen }
    }

    /// A deck that is longer than T bytes is opened by its whole length all the same: opening refuses that with LONG.
    fn open(&mut self, deck: &[u8]) -> bool {
        let front = deck.len().min(T);
        self.text[..front].copy_from_slice(&deck[..front]);
        let reply = chidukwore::open(deck.len(), ROWS, COLUMNS, self.lent());
        self.print("open", reply)
    }

    /// What is left of the cursor, from the front of the store, then what is right of it, from the back.
    fn document(&self) -> Vec<u8> {
        [&self.text[..self.record.l], &self.text[T - self.record.r..]].concat()
    }

    fn key(&mut self, what: &str, key: Key) {
        let reply = chidukwore::key(self.record, key, self.lent());
        self.print(what, reply);
    }

    /// Bytes from a terminal come behind those that wait, and each key is pressed as soon as it is there; what is no key is left out.
    fn receive(&mut self, piece: &[u8]) {
        self.waiting.extend(piece);
        loop {
            let Heard { code, used, kind, a, b, c } = chidukwore::receive(&self.waiting);
            if used == 0 {
                break;
            }
            self.waiting.drain(..used);
            print!("{used} received, ");
            if code != 0 {
                println!("no key: refused {code}");
            } else {
                self.key("a key", Key(kind, a, b, c));
            }
        }
        println!("waiting for more: {}", self.waiting.len());
    }

    /// The same session as an old core would have left it: its quarters have 256 bytes, and the pattern is in the third.
    fn convert(&mut self) {
        let mut old = [0; OLD_SIDE];
        old[512] = b'2';
        let Bench { text, recall, held, side, .. } = self;
        let reply = chidukwore::convert(self.record, OldStores { text, recall, held, old: &old }, side);
        self.record = reply.record;
        println!("convert: code {}, pattern {}", reply.answer.code, char::from(self.side[2048]));
    }

    /// Says whether the call was accepted.
    fn print(&mut self, what: &str, reply: Reply) -> bool {
        let a = reply.answer;
        self.record = reply.record;
        if a.code != 0 {
            println!("{what}: refused {}", a.code);
            return false;
        }
        let Answer { steps, lines, bell, first, last, row, column, .. } = a;
        println!("{what}: steps {steps}, lines {lines}, bell {bell}, rows {first} to {last}, cursor {row} {column}");
        self.send(a);
        true
    }

    /// The bytes for a terminal, with ESC as \e.
    fn send(&self, answer: Answer) {
        let mut buffer = [0; chidukwore::enough(ROWS, COLUMNS)];
        let painting = chidukwore::paint(ROWS, COLUMNS, answer, &self.screen, &mut buffer);
        assert_eq!(painting.code, 0, "screen and answer are the core's own, and the buffer is large enough");
        println!("  sends {}", String::from_utf8_lossy(&buffer[..painting.count]).replace('\x1b', "\\e"));
    }
}

fn main() -> ExitCode {
    let Some(Ok(deck)) = std::env::args().nth(1).map(std::fs::read) else {
        eprintln!("usage: show DECK, a file");
        return ExitCode::FAILURE;
    };
    let (text, recall, held) = ([0; T], [0; T], [0; T]);
    let (side, screen) = ([0; SIDE], [0; ROWS * COLUMNS]);
    let mut bench = Bench { text, recall, held, side, screen, record: Record::default(), waiting: Vec::new() };
    if !bench.open(&deck) {
        return ExitCode::FAILURE;
    }
    bench.key("left to a line ending", Key(1, 0, 0, 3));
    bench.key("right to a line ending", Key(1, 0, 1, 3));
    bench.key("quote", QUOTE);
    bench.key("insert 2", insert(b'2'));
    bench.key("find", FIND);
    bench.convert();
    bench.key("delete right to a line beginning", Key(1, 1, 1, 2));
    bench.key("delete right to a line ending", Key(1, 1, 1, 3));
    bench.key("recall", RECALL);
    bench.key("right", Key(1, 0, 1, 0));
    bench.key("insert 5", insert(b'5'));
    bench.key("cut without a mark", CUT);
    bench.key("left to a line beginning", Key(1, 0, 0, 2));
    bench.key("mark", MARK);
    bench.key("right to a line beginning", Key(1, 0, 1, 2));
    bench.key("cut", CUT);
    bench.key("left to the document's beginning", Key(1, 0, 0, 4));
    bench.key("paste", PASTE);
    bench.key("paste once more", PASTE);
    bench.key("tab without room", TAB);
    bench.key("insert a space", insert(b' '));
    bench.key("newline", NEWLINE);
    bench.key("quote again", QUOTE);
    bench.key("tab in the quotation", TAB);
    bench.key("newline in the quotation", NEWLINE);
    bench.key("no key", Key(99, 0, 0, 0));
    bench.receive(b"\x1bq\x7f\t\x1b[");
    bench.receive(b"H\r\x1b\x1bx\x1b");
    print!("document:\n{}", String::from_utf8_lossy(&bench.document()));
    ExitCode::SUCCESS
}
