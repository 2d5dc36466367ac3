//! The comparison: scripts through the bench program, walks and single calls through the host's boundary, each against this program.

use crate::bytes::{Stores, LARGEST_T, NO_MARK};
use crate::calls::{self, Call, Kind};
use crate::core::{key_of, numbers_of, Answer, Core, Reply, Second};
use crate::generate;
use crate::heard::HeardCounts;
use crate::paint_calls::PaintCall;
use crate::painted::{self, Unpainted};
use crate::plain::{press, Action, Doc, Edited, Editor, Key};
use crate::random::Random;
use crate::terminal::Terminal;
use crate::unreadable::{self, Script};
use crate::walk::{self, Walk};
use crate::window::{policy, virtual_text, window, Offsets};
use crate::{script, show, shrink};
use std::io::Write;
use std::path::Path;
use std::process::{Command, Stdio};

/// What was compared, so that a run says how much it was.
#[derive(Default)]
pub struct Counts {
    pub scripts: usize,
    pub unreadable: usize,
    pub blocks: usize,
    pub walked: Codes,
    pub called: Codes,
    pub damaged: usize,
    pub painted: Codes,
    pub paintings_damaged: usize,
    pub converted: Codes,
    pub conversions_damaged: usize,
    /// Keys on sessions that were converted.
    pub on_converted: Codes,
    pub heard: HeardCounts,
    /// Calls of walks that came as bytes.
    pub sent: Codes,
}

/// Calls by their codes.
#[derive(Default)]
pub struct Codes {
    pub codes: [usize; 9],
    pub bells: usize,
    /// Deletions with the bell, where there was recall text to keep.
    pub kept: usize,
    /// Answers with lines crossed.
    pub crossed: usize,
    pub quoted: usize,
    /// Keys where the record names a mark.
    pub marked: usize,
}

impl Codes {
    fn count(&mut self, call: &Call, answer: &Answer) {
        // A wrong code is a difference, and never comes this far.
        self.codes[answer.code] += 1;
        self.bells += answer.bell;
        self.crossed += (answer.lines > 0) as usize;
        let Kind::Key { record, numbers } = call.kind else { return };
        let quoted = record.mode == 1;
        self.quoted += quoted as usize;
        self.marked += (record.mark != NO_MARK) as usize;
        let recall = if quoted { record.qrl.max(record.qrr) } else { record.rl.max(record.rr) };
        let deletion = matches!(key_of(numbers), Some(Key::Function(Action::Delete, ..)));
        self.kept += (answer.bell == 1 && deletion && recall > 0) as usize;
    }
}

impl std::fmt::Display for Codes {
    fn fmt(&self, f: &mut std::fmt::Formatter) -> std::fmt::Result {
        let names = ["accepted", "SIZE", "LONG", "TEXT", "SESSION", "KEY", "FULL", "ROOM", "LINE"];
        let names = names.iter().chain(&["bell", "recall text kept", "lines crossed", "in QUOTED", "with a mark"]);
        let counts = self.codes.into_iter().chain([self.bells, self.kept, self.crossed, self.quoted, self.marked]);
        let shown: Vec<String> =
            names.zip(counts).filter(|(_, count)| *count > 0).map(|(name, count)| format!("{name} {count}")).collect();
        write!(f, "{}: {}", self.codes.iter().sum::<usize>(), shown.join(", "))
    }
}

/// Where the two part.
enum Difference {
    Call(Box<Call>),
    Painting(Box<PaintCall>),
    /// The named rows of the keys so far, or the bytes that are sent for them, don't keep a terminal up to date.
    Terminal,
}

/// Compares this many walks of this seed, each also as a script, and as many short scripts. Gives the report of the first difference.
pub fn scripts(core: &dyn Core, bench: Option<&Path>, seed: u64, count: u64, counts: &mut Counts) -> Result<(), String> {
    for i in 0..count {
        let mut random = Random::new(seed, 2 * i);
        let walk = a_walk(&mut random, i);
        if walk_through(core, &walk, &mut counts.walked).is_err() {
            return Err(format!("seed {seed}, walk {i}\n{}", report_walk(core, walk)));
        }
        for input in [unreadable::script(&mut random, &walk), unreadable::short(&mut random, &walk)] {
            let output = script::run(&Second, &input);
            counts.scripts += 1;
            counts.unreadable += output.split(|byte| *byte == 10).any(|line| line.starts_with(b"script=")) as usize;
            counts.blocks += output.split(|byte| *byte == 10).filter(|line| line.starts_with(b"code=")).count();
            if bench_output(core, bench, &input) != output {
                return Err(format!("seed {seed}, script {i}\n{}", report_script(core, bench, input)));
            }
        }
    }
    Ok(())
}

/// Compares this many single calls of this seed.
pub fn calls(core: &dyn Core, seed: u64, count: u64, counts: &mut Counts) -> Result<(), String> {
    for i in 0..count {
        let (call, damaged) = calls::call(&mut Random::new(seed, 2 * i + 1));
        counts.damaged += damaged as usize;
        if both(core, &call, &mut counts.called).is_none() {
            let smallest = shrink::call(call, |call| both(core, call, &mut Codes::default()).is_none());
            return Err(format!("seed {seed}, call {i}\n{}", report_call(core, &smallest)));
        }
    }
    Ok(())
}

/// Mostly small; one in 200 as large as a store may be, and then short, for it is slow; one in eight along lines as long as may be.
fn a_walk(random: &mut Random, i: u64) -> Walk {
    if i % 8 == 4 {
        return walk::along_long_lines(random);
    }
    let t = if i % 200 == 199 { random.within(4_097, LARGEST_T) } else { generate::store(random) };
    let mut walk = walk::walk(random, t);
    if t > 4_096 {
        walk.keys.truncate(60);
    }
    walk
}

/// One call in both programs: the same reply and the same bytes in all five stores, or none.
pub fn both(core: &dyn Core, call: &Call, codes: &mut Codes) -> Option<(Reply, Stores)> {
    let outcome = call.outcome(core);
    if outcome != call.outcome(&Second) {
        return None;
    }
    codes.count(call, &outcome.0.answer);
    Some(outcome)
}

/// Opens and presses each key in both programs. A terminal that is sent the named rows only must show the window of the plain
/// document, which is kept here with no store at all; and one that is fed the bytes for real terminals must show that too.
fn walk_through(core: &dyn Core, walk: &Walk, codes: &mut Codes) -> Result<(), Difference> {
    let Walk { h, w, t, .. } = *walk;
    let mut editor = Editor { main: Edited { text: Doc::new(&[], &walk.text), recall: Doc::default() }, ..Editor::default() };
    let mut at = Offsets::default();
    let mut fed = Terminal::showing(b'E', h, w);
    let mut terminal = vec![0; h * w];
    let mut up_to_date = |editor: &Editor, at: Offsets, answer: &Answer, screen: &[u8]| {
        if answer.first > 0 {
            let rows = (answer.first - 1) * w..answer.last * w;
            terminal[rows.clone()].copy_from_slice(&screen[rows]);
        }
        terminal == window(&virtual_text(editor), at, h, w)
    };

    let n = walk.text.len();
    let mut stores = Stores::zeros(t, h, w);
    stores.text[..n].copy_from_slice(&walk.text);
    let mut call = Call { kind: Kind::Open { n, h, w }, stores };
    for key in walk.keys.iter().map(Some).chain([None]) {
        let Some((reply, stores)) = both(core, &call, codes) else {
            return Err(Difference::Call(Box::new(call)));
        };
        if !up_to_date(&editor, at, &reply.answer, &stores.screen) {
            return Err(Difference::Terminal);
        }
        if reply.answer.code == 0 {
            painted::send(core, &mut fed, &reply.answer, &stores.screen).map_err(|wrong| match wrong {
                Unpainted::Differs(call) => Difference::Painting(call),
                Unpainted::Shows => Difference::Terminal,
            })?;
        }
        let Some(key) = key else { break };
        call = Call { kind: Kind::Key { record: reply.record, numbers: numbers_of(*key) }, stores };
        if let Ok(pressed) = press(&editor, *key, t) {
            editor = pressed.editor;
            at = policy(&virtual_text(&editor), at, h, w);
        }
    }
    Ok(())
}

/// What the bench program writes. Without one, scripts are read here, and their opening and keys go through the boundary.
fn bench_output(core: &dyn Core, bench: Option<&Path>, input: &[u8]) -> Vec<u8> {
    let Some(program) = bench else {
        return script::run(core, input);
    };
    let run = || -> std::io::Result<Vec<u8>> {
        let mut child = Command::new(program).stdin(Stdio::piped()).stdout(Stdio::piped()).stderr(Stdio::null()).spawn()?;
        // It may stop before it has read all, and then the pipe breaks: no matter.
        let _ = child.stdin.take().expect("it was asked for").write_all(input);
        let output = child.wait_with_output()?;
        match output.status.code() {
            Some(_) => Ok(output.stdout),
            None => Ok([&output.stdout[..], b"\n(it was killed: ", output.status.to_string().as_bytes(), b")\n"].concat()),
        }
    };
    run().unwrap_or_else(|error| panic!("the bench program {} does not run: {error}", program.display()))
}

pub fn report_call(core: &dyn Core, call: &Call) -> String {
    let name = match call.kind {
        Kind::Key { numbers, .. } => key_of(numbers).map_or("no key".into(), script::key_name),
        Kind::Open { .. } => "opening".into(),
    };
    let (theirs, ours) = (call.outcome(core), call.outcome(&Second));
    let (theirs, ours) = (show::outcome(call, &theirs), show::outcome(call, &ours));
    format!("a call, {name}:\n{}-- the core:\n{theirs}-- the second program:\n{ours}", show::call(call))
}

/// The fewest keys that lead to a difference, as a script, and the call that shows it.
fn report_walk(core: &dyn Core, walk: Walk) -> String {
    let walk = shrink::walk(walk, |walk| walk_through(core, walk, &mut Codes::default()).is_err());
    let script = show::script(&Script::of(&walk).bytes());
    match walk_through(core, &walk, &mut Codes::default()) {
        Err(Difference::Call(call)) => format!("a script:\n{script}its last call: {}", report_call(core, &call)),
        Err(Difference::Painting(call)) => format!("a script:\n{script}after it: {}", painted::report(core, &call)),
        _ => format!("a script whose named rows or bytes do not keep a terminal up to date:\n{script}"),
    }
}

fn report_script(core: &dyn Core, bench: Option<&Path>, input: Vec<u8>) -> String {
    let outputs = |input: &[u8]| (bench_output(core, bench, input), script::run(&Second, input));
    let input = shrink::script(input, |input| {
        let (theirs, ours) = outputs(input);
        theirs != ours
    });
    let (theirs, ours) = outputs(&input);
    let (theirs, ours) = show::from_the_first_difference(&theirs, &ours);
    format!("a script:\n{}\n-- the bench program:\n{theirs}\n-- the second program:\n{ours}", show::script(&input))
}
