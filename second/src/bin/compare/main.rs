//! Compares the proved core, and the bench program that CHIDUKWORE_BENCH names, with the second program.

#[cfg(proved)]
mod boundary;

use second::compare::{calls, scripts, Counts};
use second::converted::conversions;
use second::core::{Core, Second};
use second::heard::{streams, HeardCounts};
use second::painted::paintings;
use std::path::PathBuf;
use std::process::ExitCode;
use std::time::Instant;

const USAGE: &str = "compare [--seed S] [--scripts N] [--calls N] [--paintings N] [--conversions N] [--streams N] [--self]";

struct Options {
    seed: u64,
    scripts: u64,
    calls: u64,
    paintings: u64,
    conversions: u64,
    streams: u64,
    with_itself: bool,
}

fn options() -> Option<Options> {
    let mut options = Options {
        seed: 1,
        scripts: 100,
        calls: 10_000,
        paintings: 10_000,
        conversions: 10_000,
        streams: 1_000,
        with_itself: false,
    };
    let mut words = std::env::args().skip(1);
    while let Some(word) = words.next() {
        let mut number = || words.next()?.parse().ok();
        match word.as_str() {
            "--seed" => options.seed = number()?,
            "--scripts" => options.scripts = number()?,
            "--calls" => options.calls = number()?,
            "--paintings" => options.paintings = number()?,
            "--conversions" => options.conversions = number()?,
            "--streams" => options.streams = number()?,
            "--self" => options.with_itself = true,
            _ => return None,
        }
    }
    Some(options)
}

/// The core behind the boundary, if this program was linked with it.
fn proved() -> Option<Box<dyn Core>> {
    #[cfg(proved)]
    return Some(Box::new(boundary::Proved));
    #[cfg(not(proved))]
    return None;
}

fn main() -> ExitCode {
    let Some(options) = options() else {
        eprintln!("{USAGE}");
        return ExitCode::from(2);
    };
    let core = if options.with_itself { Some(Box::new(Second) as Box<dyn Core>) } else { proved() };
    let Some(core) = core else {
        eprintln!("compare: built without the proved core (CHIDUKWORE_LIB); --self compares the second program with itself");
        return ExitCode::from(2);
    };
    let named = std::env::var_os("CHIDUKWORE_BENCH").filter(|path| !path.is_empty() && !options.with_itself);
    let bench = named.map(PathBuf::from);

    let mut counts = Counts::default();
    let start = Instant::now();
    let seconds = || start.elapsed().as_secs_f64();
    let mut found = paintings(&*core, options.seed, options.paintings, &mut counts);
    if found.is_ok() {
        println!("single paintings {}, damaged {}", options.paintings, counts.paintings_damaged);
        println!("  calls {}", counts.painted);
        found = conversions(&*core, options.seed, options.conversions, &mut counts);
    }
    if found.is_ok() {
        println!("conversions {}, damaged {}", options.conversions, counts.conversions_damaged);
        println!("  calls {}", counts.converted);
        println!("  keys after them {}", counts.on_converted);
        found = streams(&*core, options.seed, options.streams, &mut counts);
    }
    if found.is_ok() {
        let HeardCounts { keys, refused, more } = counts.heard;
        println!("streams {}, each cut at every place, and all short inputs", options.streams);
        println!("  heard: keys {keys}, SEQUENCE {refused}, more needed {more}");
        println!("  calls of walks sent as bytes {}", counts.sent);
        found = scripts(&*core, bench.as_deref(), options.seed, options.scripts, &mut counts);
    }
    if found.is_ok() {
        println!("walks {}, a terminal fed after each accepted call", options.scripts);
        println!("  calls {}", counts.walked);
        println!("scripts {}, unreadable {}, blocks {}", counts.scripts, counts.unreadable, counts.blocks);
        found = calls(&*core, options.seed, options.calls, &mut counts);
    }
    if let Err(difference) = found {
        println!("DIFFERENCE: {difference}");
        return ExitCode::from(1);
    }
    println!("single calls {}, damaged {}", options.calls, counts.damaged);
    println!("  calls {}", counts.called);
    println!("no difference with seed {}, {:.1} s", options.seed, seconds());
    ExitCode::SUCCESS
}
