//! The comparison of the conversion of old sessions, and of keys on the sessions that come out of it.

use crate::compare::Counts;
use crate::convert_calls::{self, ConvertCall, Converted};
use crate::core::{Core, Second};
use crate::random::Random;
use crate::{show, shrink};

/// Compares this many conversions. Gives the report of the first difference.
pub fn conversions(core: &dyn Core, seed: u64, count: u64, counts: &mut Counts) -> Result<(), String> {
    for i in 0..count {
        // Streams behind those of the paintings.
        let (call, damaged) = convert_calls::call(&mut Random::new(!seed, (1 << 40) + i));
        let Some(converted) = both(core, &call) else {
            let smallest = shrink::conversion(call, |call| both(core, call).is_none());
            return Err(format!("seed {seed}, conversion {i}\n{}", report(core, &smallest)));
        };
        counts.conversions_damaged += damaged as usize;
        counts.converted.codes[converted.reply.answer.code] += 1;
        counts.converted.quoted += (call.record.mode == 1) as usize;
        for (reply, _) in converted.after {
            counts.on_converted.codes[reply.answer.code] += 1;
            counts.on_converted.bells += reply.answer.bell;
        }
    }
    Ok(())
}

/// One conversion in both programs: the same reply, the same bytes in the whole new side store, and the same after each key; or none.
fn both(core: &dyn Core, call: &ConvertCall) -> Option<Converted> {
    let converted = call.outcome(core);
    (converted == call.outcome(&Second)).then_some(converted)
}

fn report(core: &dyn Core, call: &ConvertCall) -> String {
    let [theirs, ours] = [call.outcome(core), call.outcome(&Second)].map(|converted| show::converted(&converted));
    format!("a conversion:\n{}-- the core:\n{theirs}-- the second program:\n{ours}", show::conversion(call))
}
