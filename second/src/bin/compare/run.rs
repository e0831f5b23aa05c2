//! Runs cases in the archive and in the reference, and compares what came out.

use crate::crash;
use crate::tally::Tally;
use crate::what::{What, Writer};
use crate::written::Written;
use crate::Verdict;
use second::archive::{Archive, Observed};
use second::call::{hex, Call, Kind, Outcome};
use second::generate::header::{EDITION, EDITIONS};
use second::generate::Made;
use second::reference::roll;
use second::{archive, frame, generate, reference, worked};

/// Runs the cases worked by hand and then `count` random ones.
pub fn compare(count: u64, seed: u64) -> Verdict {
    let mut archive = Archive::default();
    for worked in worked::all() {
        if !agrees(&mut archive, &worked.call, &worked.outcome) {
            eprintln!("compare: this was worked by hand: {}", worked.name);
            return Verdict::Differ;
        }
    }
    let mut tally = Tally::default();
    let mut written = Written::default();
    for index in 0..count {
        let made = generate::case(seed, index);
        let outcome = reference::run(&made.call);
        if !agrees(&mut archive, &made.call, &outcome) {
            eprintln!("compare: this was case {index} of seed {seed}");
            return Verdict::Differ;
        }
        let Made { call, .. } = &made;
        if !walk_agrees(call, &mut tally)
            || !written.follow(&mut archive, &mut tally, call, &outcome)
        {
            eprintln!("compare: this was case {index} of seed {seed}");
            return Verdict::Differ;
        }
        tally.count(&made, &outcome);
    }
    print!("{tally}");
    println!("compare: {count} cases agree");
    let missing = tally.missing();
    if missing.is_empty() {
        return Verdict::Agree;
    }
    println!("compare: that is no fault of the archive, but too few cases to meet these quotas:");
    for complaint in &missing {
        println!("compare: {complaint}");
    }
    Verdict::TooFew
}

/// Whether the walk over a roll, slip after slip to its end, is the one expected. True for every other call.
fn walk_agrees(call: &Call, tally: &mut Tally) -> bool {
    if call.kind != Kind::RollFirst {
        return true;
    }
    let roll = &call.inputs[0];
    let (sizes, end) = roll::walk(roll);
    let number = end.map_or(0, |refusal| refusal.number());
    let same = walk_of_archive(roll) == (sizes.clone(), number);
    if !same {
        eprintln!("compare: the walk over a roll differs: {}", hex(roll));
    }
    if is_mixed(roll, &sizes) {
        tally.meet(What::MixedRoll(Writer::Second));
    }
    same
}

/// Whether slips of both editions were found: their sizes are given.
pub fn is_mixed(roll: &[u8], sizes: &[usize]) -> bool {
    let mut rest = roll;
    let mut found = [false; 2];
    for size in sizes {
        let edition = EDITION.read(rest);
        for (is_found, number) in found.iter_mut().zip(EDITIONS) {
            *is_found |= edition == Some(number);
        }
        rest = &rest[*size..];
    }
    found == [true; 2]
}

/// The sizes of the slips that the archive finds, and the number that ends its walk.
pub fn walk_of_archive(roll: &[u8]) -> (Vec<usize>, u8) {
    let (mut sizes, mut rest) = (Vec::new(), roll);
    loop {
        let answer = archive::roll_first(rest);
        let size = (answer >> 8) as usize;
        if size == 0 {
            return (sizes, answer as u8);
        }
        sizes.push(size);
        rest = &rest[size..];
    }
}

/// Runs the one case that `bytes` frame and prints both outcomes.
pub fn replay(bytes: &[u8]) -> Verdict {
    let Some((call, [])) = frame::read(bytes) else {
        eprintln!("compare: these bytes are not one whole case");
        return Verdict::Unusable;
    };
    println!("{} {call:?}", call.kind.name());
    let outcome = reference::run(&call);
    if !agrees(&mut Archive::default(), &call, &outcome) {
        return Verdict::Differ;
    }
    println!("both: {}", outcome.text(call.kind));
    println!("compare: the case agrees");
    Verdict::Agree
}

/// Whether the archive's outcome is the one expected. If not, both are printed with the way to run the case again.
pub fn agrees(archive: &mut Archive, call: &Call, expected: &Outcome) -> bool {
    let mut bytes = Vec::new();
    frame::write(call, &mut bytes);
    let observed = crash::during(&bytes, || archive.run(call));
    let same = observed.answer == expected.answer.packed(call.kind)
        && observed.buffers == expected.buffers
        && observed.others_kept;
    if !same {
        print_difference(call, expected, &observed, &bytes);
    }
    same
}

fn print_difference(call: &Call, expected: &Outcome, observed: &Observed, frame: &[u8]) {
    let bytes = |buffers: &[Vec<u8>]| {
        let hex: Vec<String> = buffers.iter().map(|buffer| hex(buffer)).collect();
        hex.join(" ")
    };
    let name = call.kind.name();
    eprintln!("compare: {name} differs; answers are packed, buffers in hexadecimal");
    eprintln!(
        "expected {:#x} {}",
        expected.answer.packed(call.kind),
        bytes(&expected.buffers)
    );
    eprintln!(
        "archive  {:#x} {}",
        observed.answer,
        bytes(&observed.buffers)
    );
    if !observed.others_kept {
        eprintln!("the archive wrote to an input or before a buffer");
    }
    eprintln!("run again with\ncompare replay {}", hex(frame));
}
