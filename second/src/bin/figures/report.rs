//! Takes all figures and sets them out as the page docs/FIGURES.md.

use crate::fec::{Fec, Library};
use crate::inputs::{samples, settings, Damage, Sample, Setting};
use crate::machine::{machine, today};
use crate::measure::{Figure, RUNS};
use crate::rolls::{walks, Walk, LONGEST_SLIP};
use crate::sides::{decode_figure, encode_figure, fec_decode_figure, fec_encode_figure};
use crate::stack::stack_use;
use second::archive::{self, CodeRef};
use second::reference::code::LONGEST_ROW;
use std::fmt::Write;

/// The length of the longest line.
const LONGEST_LINE: usize = 1448;
/// The length of the longest text of levels.
const LONGEST_LEVELS: usize = 960;
/// The longest row and the longest slip of edition 1.
const LONGEST_OLD_ROW: usize = 128;
const LONGEST_OLD_SLIP: usize = 259;
/// A thread with this stack is enough for every call.
const ENOUGH: usize = 128 * 1024;

/// The page. Each line of a table is also printed as soon as it is known.
pub fn report() -> String {
    let mut tables = String::new();
    let decode = decode_table(&mut tables);
    let encode = encode_table(&mut tables);
    fec_table(&mut tables);
    roll_table(&mut tables);
    stack_table(&mut tables);
    format!("{}{tables}", introduction(decode, encode))
}

fn introduction(decode: f64, encode: f64) -> String {
    format!(
        "# Figures

Taken on {}, {}, and written by

    cargo run --profile figures --offline --manifest-path second/Cargo.toml --bin figures

Decode and encode of the archive stand against a plain elimination decoder and a plain encoder in ordinary Rust
(`second/src/plain`): products from a full table of the field, one flat matrix brought to triangular form up to the
first dependent column, Horner's rule for each point. Both sides check their inputs, both are optimised builds for
plain x86-64, and both get the same 8 codes, messages and rows. k is n / 2 throughout.

Buffers are made before the clock starts and are not cleared between calls: each call finds what the last one wrote,
in a warm cache. Times are the thread's processor time for one call. The two sides take turns, {RUNS} times; times and
ratios are medians, and the spread is the least and the greatest ratio of a turn. A ratio below 1 means that the
archive is faster.

Asked for: m 8, r 1, n 128, k 64 within 1.5 times, decoding 32 wrong symbols and encoding.
Measured: decode {decode:.2}, encode {encode:.2}.
",
        today(),
        machine()
    )
}

/// The table of decoding; gives the ratio that is asked for.
fn decode_table(page: &mut String) -> f64 {
    heading(
        page,
        "Decode",
        "| m | r | n | damage | archive, us | plain, us | ratio | spread |",
    );
    let mut asked = f64::NAN;
    for setting in settings() {
        for damage in Damage::ALL {
            let figure = decode_figure(setting, &samples(setting, damage));
            let Setting { m, r, n } = setting;
            line(
                page,
                &format!("| {m} | {r} | {n} | {} ", damage.name()),
                figure,
            );
            if setting.is_asked_for() && damage == Damage::FullRadius {
                asked = figure.ratio;
            }
        }
    }
    asked
}

/// The table of encoding; gives the ratio that is asked for.
fn encode_table(page: &mut String) -> f64 {
    heading(
        page,
        "Encode",
        "| m | r | n | archive, us | plain, us | ratio | spread |",
    );
    let mut asked = f64::NAN;
    for setting in settings() {
        let figure = encode_figure(setting, &samples(setting, Damage::None));
        let Setting { m, r, n } = setting;
        line(page, &format!("| {m} | {r} | {n} "), figure);
        if setting.is_asked_for() {
            asked = figure.ratio;
        }
    }
    asked
}

/// The table against libfec, or a word that it is not there.
fn fec_table(page: &mut String) {
    let Some(library) = Library::find() else {
        page.push_str("\n## Against libfec\n\nSkipped: libfec is not installed on this machine.\n");
        println!("libfec is not installed: skipped");
        return;
    };
    heading(
        page,
        "Against libfec",
        "| n | call | archive, us | libfec, us | ratio | spread |",
    );
    for setting in settings().into_iter().filter(|setting| setting.fits_fec()) {
        let fec = Fec::new(library, setting);
        let n = setting.n;
        for damage in Damage::ALL {
            let wrong = damage.total((n - setting.k()) / 2);
            let samples = samples(setting, damage);
            let figure = fec_decode_figure(setting, &samples, &fec, wrong);
            line(
                page,
                &format!("| {n} | decode, damage {} ", damage.name()),
                figure,
            );
        }
        let figure = fec_encode_figure(setting, &samples(setting, Damage::None), &fec);
        line(page, &format!("| {n} | encode "), figure);
    }
    page.push_str(
        "\nFor m 8 and r 1. libfec's code of this size is another one, with the message in clear, and its decoder\n\
         finds the positions of the wrong symbols; it gets a fresh copy of its block for each call.\n",
    );
}

/// The table of walks over a roll.
fn roll_table(page: &mut String) {
    let columns = "| roll, bytes | slip, bytes | slips found | walk, us | against half the roll |";
    heading(page, "A walk over a roll", columns);
    for walk in walks() {
        let Walk {
            bytes,
            slip,
            slips,
            time,
            ratio,
        } = walk;
        let line = format!("| {bytes} | {slip} | {slips} | {time:.2} | {ratio:.2} |");
        println!("{line}");
        page.push_str(&line);
        page.push('\n');
    }
    page.push_str(
        "\nEach slip is found by one call of roll_first on what is left. The time is linear in the slips: a roll twice as\n\
         long takes twice as long.\n",
    );
}

/// A level-two heading and the first two lines of a table.
fn heading(page: &mut String, title: &str, columns: &str) {
    let rule: String = "|---".repeat(columns.matches('|').count() - 1);
    let _ = write!(page, "\n## {title}\n\n{columns}\n{rule}|\n");
    println!("{title}\n{columns}");
}

fn line(page: &mut String, start: &str, figure: Figure) {
    let line = format!(
        "{start}| {:.2} | {:.2} | {:.2} | {:.2} to {:.2} |",
        figure.first, figure.second, figure.ratio, figure.least_ratio, figure.most_ratio
    );
    println!("{line}");
    page.push_str(&line);
    page.push('\n');
}

/// The stack that each call takes for the longest row.
fn stack_table(page: &mut String) {
    let uses = stack_uses();
    let deepest = uses.iter().map(|(_, bytes)| *bytes).max().unwrap_or(0);
    assert!(deepest < ENOUGH, "a call takes {deepest} bytes of stack");
    let _ = write!(
        page,
        "\n## Stack\n\nBytes of stack for m 8, r 1, n 240, k 120, slips of edition 2, and n 128, k 64 for the two calls that turn a slip,\n\
         found by running each call on a stack filled with a pattern, beyond those of a thread that does nothing: 0 is a call\n\
         that takes no more than that. A thread with a stack of {} KiB has {ENOUGH}; the call that takes most takes {deepest}.\n\n\
         | call | bytes |\n|---|---|\n",
        ENOUGH / 1024
    );
    for (name, bytes) in uses {
        println!("stack of {name}: {bytes} bytes");
        let _ = writeln!(page, "| {name} | {bytes} |");
    }
}

fn stack_uses() -> Vec<(&'static str, usize)> {
    let setting = Setting {
        m: 8,
        r: 1,
        n: LONGEST_ROW,
    };
    let samples = samples(setting, Damage::FullRadius);
    let Sample { code, message, row } = &samples[0];
    let code = CodeRef::from(code);
    let mut out = [0; LONGEST_ROW];
    let mut other = [0; LONGEST_ROW];
    let mut found = [0; LONGEST_ROW / 2];
    let mut slip = [0; LONGEST_SLIP];
    let mut text = [0; LONGEST_LINE];
    let shorter = CodeRef {
        k: LONGEST_OLD_ROW / 2,
        points: &code.points[..LONGEST_OLD_ROW],
        ..code
    };
    let (mut old, mut new) = ([0; LONGEST_OLD_SLIP], [0; LONGEST_OLD_SLIP + 1]);
    archive::slip_write(1, shorter, &row[..LONGEST_OLD_ROW], &mut old);
    let mut levels = [0; LONGEST_LEVELS];
    let size = (archive::levels_write(8, 1, row, &mut levels) >> 8) as usize;
    let mut again = [0; LONGEST_LEVELS];
    vec![
        (
            "encode",
            stack_use(&mut || _ = archive::encode(code, message, &mut out)),
        ),
        (
            "decode",
            stack_use(&mut || _ = archive::decode(code, row, &mut found, &mut out)),
        ),
        (
            "distance",
            stack_use(&mut || _ = archive::distance(1, row, code.points)),
        ),
        (
            "slip_write",
            stack_use(&mut || _ = archive::slip_write(2, code, row, &mut slip)),
        ),
        (
            "slip_read",
            stack_use(&mut || _ = archive::slip_read(&slip, &mut out, &mut other)),
        ),
        (
            "line",
            stack_use(&mut || _ = archive::line(&slip, &mut text)),
        ),
        (
            "roll_first",
            stack_use(&mut || _ = archive::roll_first(&slip)),
        ),
        (
            "to_new",
            stack_use(&mut || _ = archive::to_new(&old, &mut new)),
        ),
        (
            "to_old",
            stack_use(&mut || _ = archive::to_old(&new, &mut old)),
        ),
        (
            "levels_read",
            stack_use(&mut || _ = archive::levels_read(8, 1, &levels[..size], &mut out)),
        ),
        (
            "levels_write",
            stack_use(&mut || _ = archive::levels_write(8, 1, row, &mut again)),
        ),
    ]
}
