//! The comparison of the routine that writes the bytes for terminals: single calls, and after each call of a walk a terminal that is fed
//! its bytes.

use crate::compare::Counts;
use crate::core::{Answer, Core, Second};
use crate::paint::{Ask, Painting};
use crate::paint_calls::{self, PaintCall};
use crate::random::Random;
use crate::terminal::Terminal;
use crate::{show, shrink};

/// Compares this many single calls. Gives the report of the first difference.
pub fn paintings(core: &dyn Core, seed: u64, count: u64, counts: &mut Counts) -> Result<(), String> {
    for i in 0..count {
        // Streams of another seed, for those of this one are the walks' and the calls'.
        let (call, damaged) = paint_calls::call(&mut Random::new(!seed, i));
        let Some((painting, _)) = both(core, &call) else {
            let smallest = shrink::painting(call, |call| both(core, call).is_none());
            return Err(format!("seed {seed}, painting {i}\n{}", report(core, &smallest)));
        };
        counts.painted.codes[painting.code] += 1;
        counts.paintings_damaged += damaged as usize;
    }
    Ok(())
}

/// One call in both programs: the same answer and the same bytes in the whole buffer, or none.
fn both(core: &dyn Core, call: &PaintCall) -> Option<(Painting, Vec<u8>)> {
    let outcome = call.outcome(core);
    (outcome == call.outcome(&Second)).then_some(outcome)
}

pub fn report(core: &dyn Core, call: &PaintCall) -> String {
    let [theirs, ours] = [call.outcome(core), call.outcome(&Second)].map(|outcome| show::painted(&outcome));
    format!("a painting:\n{}-- the core:\n{theirs}-- the second program:\n{ours}", show::painting(call))
}

/// How a terminal is not brought up to date.
pub enum Unpainted {
    /// The two write different bytes.
    Differs(Box<PaintCall>),
    /// They write the same bytes, but the terminal shows something else then, or can't obey them.
    Shows,
}

/// Sends a terminal of this size what an answer has to show. It must show the screen then, and have the cursor's place.
pub fn send(core: &dyn Core, terminal: &mut Terminal, answer: &Answer, screen: &[u8]) -> Result<(), Unpainted> {
    let Answer { first, last, row, column, .. } = *answer;
    let Terminal { h, w, .. } = *terminal;
    // A buffer that is large enough for any of them.
    let buffer = vec![0xA5; h * (w + 7) + 9];
    let call = PaintCall { ask: Ask { h, w, first, last, row, column }, screen: screen.to_vec(), buffer };
    let Some((painting, bytes)) = both(core, &call) else {
        return Err(Unpainted::Differs(Box::new(call)));
    };
    let shows = painting.code == 0
        && terminal.feed(&bytes[..painting.count])
        && terminal.cells == screen
        && terminal.cursor == (row, if column < w { column + 1 } else { w });
    shows.then_some(()).ok_or(Unpainted::Shows)
}
