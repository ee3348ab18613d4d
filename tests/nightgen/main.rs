//! Generator of night files for comparisons, with counts of what they cover.
//!
//! Every night is made event by event against the second program's core, so
//! that the generator knows the state and can aim: at lanes in progress, at
//! paths in a given state, at the edges of an access, at command messages that
//! are right but for one byte, at flags that are on, at the module's own states,
//! at one staged set while the other is at work. A plain restatement of grouping,
//! verdicts, triggers, commands, the module's states and what is on is held against
//! the core on the way. The same seed always gives the same files.
//!
//! * `rng`, `staged`, `state`: random numbers; where the staged sets lie; the state
//!   a night has reached.
//! * `rules`, `messages`, `power`, `lasting`: grouping, verdicts, triggers, the
//!   interrupt, command messages, the module's states with its reset, and what is
//!   on, said plainly.
//! * `image`, `aims`, `nights`: images, events that aim at the state, and the
//!   nights and files made of them.
//! * `tally`, `coverage`: what must occur, and the counts of what did.
//! * `damage`: damaged files.
//! * `claims`, `sound_states`: soundness and demand 3, from start and from
//!   states made otherwise.
//! * `links`: pairs of nights that differ on some lanes, and that no other lane knows.
//! * `pieces`: the streaming form, files cut anywhere.
//! * `options`: the command line. The commands themselves are in this file.

#![forbid(unsafe_code)]

mod aims;
mod claims;
mod coverage;
mod damage;
mod image;
mod lasting;
mod links;
mod messages;
mod nights;
mod options;
mod pieces;
mod power;
mod rng;
mod rules;
mod sound_states;
mod staged;
mod state;
mod tally;

use self::aims::Kinds;
use self::claims::Claims;
use self::coverage::Coverage;
use self::damage::Damage;
use self::image::{limits, put_limits, turned_round};
use self::links::{make_pair, Counts};
use self::nights::{
    edition_of, make_night, make_night_of_applies, night_file, night_length, FOURTH, REFUSED_EVERY,
    THIRD,
};
use self::options::Options;
use self::pieces::Pieces;
use self::rng::Rng;
use second::night;
use std::collections::BTreeMap;
use std::fs;
use std::io::{self, Write};
use std::process::exit;

const HELP: &str = "\
nightgen: night files from fixed seeds

  nightgen nights  [--seed S] [--count N] OUTPUT   nights with mixed events
  nightgen damaged [--seed S] [--count N] OUTPUT   damaged files, and some whole ones
  nightgen bench   [--seed S] [--records R] [--edition 3] [--applies] --dir D | --stream F
                                                   one night of R mixed records, of edition 4:
                                                   two module events, then the others; with
                                                   --edition 3 those others alone; with
                                                   --applies mostly Applies of 1, 2, 4 and 8
                                                   lanes instead of mixed records
  nightgen links   [--seed S] [--count N] --dir D  pairs of nights that differ on some lanes:
                                                   00000.first.night, 00000.second.night and
                                                   00000.moments, how they lie side by side
  nightgen check   [--seed S] [--count N]          soundness and demand 3 on N nights;
                                                   these and damaged files cut anywhere;
                                                   ten pairs of runs for each night

OUTPUT is --dir D (files 00000.night and so on) or --stream F (each file after
its length in 4 bytes, high byte first; - is standard output). What the files
cover is printed (to standard error with --stream -); if something that ought
to occur never did, the end is an error. --count 0 prints nothing and ends well.
";

fn main() {
    let arguments: Vec<String> = std::env::args().skip(1).collect();
    if let Err(message) = run(&arguments) {
        eprintln!("nightgen: {}", message);
        exit(1);
    }
}

fn run(arguments: &[String]) -> Result<(), String> {
    let command = arguments.first().map(String::as_str).unwrap_or("--help");
    if matches!(command, "--help" | "-h" | "help") {
        print!("{}", HELP);
        return Ok(());
    }
    let options = Options::parse(&arguments[1..])?;
    match command {
        "nights" => nights(&options),
        "damaged" => damaged(&options),
        "bench" => bench(&options),
        "links" => links(&options),
        "check" => check(&options),
        _ => Err(format!("{} is not a command; see nightgen --help", command)),
    }
}

fn failed(error: io::Error) -> String {
    format!("cannot write: {}", error)
}

fn nights(options: &Options) -> Result<(), String> {
    let mut rng = Rng(options.seed);
    let mut coverage = Coverage::default();
    let mut output = options.output()?;
    for index in 0..options.count {
        let length = night_length(&mut rng, index);
        // A refused night's events are never answered, so they cover nothing.
        let refused = index % REFUSED_EVERY == REFUSED_EVERY - 1;
        let mut unanswered = Coverage::default();
        let covers = if refused { &mut unanswered } else { &mut coverage };
        let edition = edition_of(index);
        let mut made = make_night(&mut rng, edition, length, true, covers);
        if refused {
            let rising = limits(&made.image);
            put_limits(&mut made.image, turned_round(rising, index / REFUSED_EVERY % 4));
        }
        let file = night_file(edition, &made);
        coverage.look_at_start(&made.image, night::check(&file).err().unwrap_or(0));
        coverage.look_at_edition(edition, &made);
        output.put(index, &file).map_err(failed)?;
    }
    output.finish().map_err(failed)?;
    match options.count {
        0 => Ok(()),
        _ => all_occurred(coverage.print(&mut options.report()).map_err(failed)?),
    }
}

fn damaged(options: &Options) -> Result<(), String> {
    let mut output = options.output()?;
    let mut damage = Damage::new(&mut Rng(options.seed));
    let listed = damage.listed.len();
    let mut kinds: BTreeMap<&'static str, [u64; 4]> = BTreeMap::new();
    for index in 0..options.count {
        let (kind, file) = damage.next();
        let column = match night::check(&file) {
            Err(9) => 0,
            Err(2) => 1,
            Err(_) => 2,
            Ok(_) => 3,
        };
        // What the files listed with an image of a kind must give.
        let wanted = match kind {
            "flat and malformed" | "back to front and malformed"
            | "back to front, flat and malformed"
            | "edition, offset and length that do not belong together"
            | "edition that there is not" | "line neither on nor off"
            | "module event or line in an older edition"
            | "off mask in an older edition" | "unused byte" => 0,
            "flat image" | "back to front and flat" => 1,
            "back to front" => 2,
            "whole" | "longest, whole" | "limits equal, whole" => 3,
            _ => column,
        };
        if column != wanted {
            return Err(format!("file {} ({}) is not answered as it must be", index, kind));
        }
        kinds.entry(kind).or_insert([0; 4])[column] += 1;
        output.put(index, &file).map_err(failed)?;
    }
    output.finish().map_err(failed)?;
    let mut report = options.report();
    writeln!(report, "    bad 9    bad 2   bad 10   replays").map_err(failed)?;
    for (kind, [malformed, flat, turned, whole]) in &kinds {
        writeln!(report, "{:9}{:9}{:9}{:10}  {}", malformed, flat, turned, whole, kind)
            .map_err(failed)?;
    }
    if options.count > 0 && options.count < listed {
        return Err(format!(
            "{} files do not hold all {} listed kinds of damage",
            options.count, listed
        ));
    }
    Ok(())
}

fn links(options: &Options) -> Result<(), String> {
    let directory = options.directory()?;
    let mut rng = Rng(options.seed);
    let mut counts = Counts::default();
    for index in 0..options.count {
        let pair = make_pair(&mut rng, index, Kinds::of(FOURTH), &mut counts);
        for (name, file) in pair.files(index) {
            fs::write(directory.join(name), file).map_err(failed)?;
        }
        if let Some(what) = pair.broken {
            return Err(format!("pair {}, after its last moment: {}", index, what));
        }
    }
    match options.count {
        0 => Ok(()),
        _ => all_occurred(counts.print(&mut options.report()).map_err(failed)?),
    }
}

fn all_occurred(missing: usize) -> Result<(), String> {
    match missing {
        0 => Ok(()),
        _ => Err(format!("{} things never occurred", missing)),
    }
}

/// In edition 3 the same records but for the module events, which are first.
fn bench(options: &Options) -> Result<(), String> {
    let (edition, left_out) = match options.edition {
        4 => (FOURTH, 0),
        3 => (THIRD, 2),
        other => return Err(format!("edition {} is not measured", other)),
    };
    let (mut rng, length) = (Rng(options.seed), options.records + left_out);
    let mut made = if options.applies {
        make_night_of_applies(&mut rng, length)
    } else {
        make_night(&mut rng, FOURTH, length, false, &mut Coverage::default())
    };
    made.events.drain(..left_out);
    let mut output = options.output()?;
    output.put(0, &night_file(edition, &made)).map_err(failed)?;
    output.finish().map_err(failed)
}

fn check(options: &Options) -> Result<(), String> {
    let mut rng = Rng(options.seed);
    let mut cuts = Rng(!options.seed);
    let mut uncounted = Coverage::default();
    let mut claims = Claims::default();
    let mut pieces = Pieces::default();
    for index in 0..options.count {
        let length = night_length(&mut rng, index);
        let edition = edition_of(index);
        let made = make_night(&mut rng, edition, length, true, &mut uncounted);
        let file = night_file(edition, &made);
        claims
            .night(&made)
            .and_then(|()| pieces.file(&file, &mut cuts))
            .map_err(|what| counterexample(options, index, &file, what))?;
        for _ in 0..200 {
            claims.made_state(&mut rng)?;
        }
    }
    let pairs = 10 * options.count;
    let counts = check_links(options, pairs)?;
    let mut damage = Damage::new(&mut rng);
    for index in 0..damage.listed.len() + options.count {
        let (_, file) = damage.next();
        pieces.file(&file, &mut cuts).map_err(|what| counterexample(options, index, &file, what))?;
    }
    println!(
        "{} nights, {} events, {} commands run, {} resets: every state reached from start is sound, no path is up below ModuleReady",
        options.count, claims.events, claims.commands, claims.resets
    );
    println!(
        "the late run agrees after each of them but for active settings of lanes in progress ({} times these differed)",
        claims.half_copied
    );
    println!(
        "{} sound states made otherwise, {} events from them: every one leads to a sound state",
        claims.made_states, claims.made_events
    );
    println!(
        "{} of these events from states with no passing group: the late run agrees as well",
        claims.made_late_events
    );
    println!(
        "the set that a group was held from has no say in any of them; {} groups of two sets are refused",
        claims.groups_of_two_sets
    );
    println!(
        "{} pairs of runs that differ on some lanes, {} moments, {} of them in one run alone: every other lane is the same after each",
        pairs, counts.moments, counts.alone
    );
    println!(
        "{} nights and damaged files in {} pieces: the streaming form prints the same as for each in one",
        pieces.files, pieces.pieces
    );
    Ok(())
}

/// Pairs of runs in memory, with both condition events; gives what was counted.
fn check_links(options: &Options, pairs: usize) -> Result<Counts, String> {
    let mut rng = Rng(options.seed.rotate_right(1));
    let mut counts = Counts::default();
    for index in 0..pairs {
        let pair = make_pair(&mut rng, index, Kinds::ALL, &mut counts);
        if let Some(what) = &pair.broken {
            let what = format!("two runs, after the last moment: {}", what);
            return Err(kept(options, index, "counterexample.txt", pair.told().as_bytes(), what));
        }
    }
    Ok(counts)
}

/// A night that breaks a claim is kept, to be looked at.
fn counterexample(options: &Options, index: usize, file: &[u8], what: String) -> String {
    kept(options, index, "counterexample.night", file, what)
}

fn kept(options: &Options, index: usize, name: &str, file: &[u8], what: String) -> String {
    match fs::write(name, file) {
        Ok(()) => format!("seed {}, file {}: {} (written to {})", options.seed, index, what, name),
        Err(error) => failed(error),
    }
}
