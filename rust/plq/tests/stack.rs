//! The calls that work in long buffers have room on the stack of a small thread, and calls from several threads do not meet.

use plq::{decode, encode, levels_read, levels_write, line, slip_read, slip_write, to_new, to_old};
use plq::{Code, Refusal, MAX_LEVELS, MAX_LINE, MAX_ROW, MAX_SLIP};
use std::thread;

const SMALL_STACK: usize = 128 * 1024;
/// Half of the longest row is the message, and so a quarter of it can be mended.
const K: usize = MAX_ROW / 2;
const RADIUS: usize = MAX_ROW / 4;

/// A constant message has the same symbol everywhere in its row if chunks have one symbol.
/// The first 60 symbols of 240 are then damaged, which is the most that k = 120 allows.
fn decodes_the_longest_row(symbol: u8) {
    let points: [u8; MAX_ROW] = std::array::from_fn(|i| i as u8);
    let code = Code {
        m: 8,
        r: 1,
        k: K,
        points: &points,
    };
    let mut sent = [0; K];
    sent[0] = symbol;
    let mut row = [0; MAX_ROW];
    assert_eq!(encode(code, &sent, &mut row), Ok(()));
    assert_eq!(row, [symbol; MAX_ROW]);
    let damaged = row[..RADIUS].iter_mut();
    damaged.for_each(|symbol| *symbol ^= 0xFF);
    let (mut message, mut depths) = ([0; K], [0; MAX_ROW]);
    assert_eq!(decode(code, &row, &mut message, &mut depths), Ok(RADIUS));
    assert_eq!(message, sent);
    let damaged = |i: usize| u8::from(i < RADIUS);
    assert_eq!(depths, std::array::from_fn(damaged));
    reads_its_slip(code, &row);
    reads_its_levels(&row);
}

fn reads_its_slip(code: Code, row: &[u8]) {
    let mut slip = [0; MAX_SLIP];
    assert_eq!(slip_write(2, code, row, &mut slip), Ok(MAX_SLIP));
    let (mut points, mut read) = ([0; MAX_ROW], [0; MAX_ROW]);
    assert!(slip_read(&slip, &mut points, &mut read).is_ok());
    assert_eq!((&points[..], &read[..]), (code.points, row));
    let mut text = [0; MAX_LINE];
    assert!(line(&slip, &mut text).is_ok());
    assert!(text.starts_with(b"0 60 | "));
    let mut turned = [0; MAX_SLIP];
    assert_eq!(to_old(&slip, &mut turned), Err(Refusal::RowLong));
    turns_a_shorter_one(code);
}

/// The longest row that edition 1 holds, over and back.
fn turns_a_shorter_one(code: Code) {
    let points = &code.points[..128];
    let [mut slip, mut turned, mut back] = [[0; MAX_SLIP]; 3];
    let size = slip_write(2, Code { points, ..code }, &[9; 128], &mut slip);
    assert_eq!(size, Ok(260));
    assert_eq!(to_old(&slip[..260], &mut turned), Ok(259));
    assert_eq!(to_new(&turned[..259], &mut back), size);
    assert_eq!(back, slip);
}

fn reads_its_levels(row: &[u8]) {
    let mut text = [0; MAX_LEVELS];
    let size = levels_write(8, 1, row, &mut text).expect("room for the text");
    let mut read = [0; MAX_ROW];
    assert_eq!(levels_read(8, 1, &text[..size], &mut read), Ok(()));
    assert_eq!(read, row);
}

fn on_small_stack(call: impl FnOnce() + Send + 'static) -> thread::JoinHandle<()> {
    let small = thread::Builder::new().stack_size(SMALL_STACK);
    small.spawn(call).expect("a thread")
}

#[test]
fn a_hundred_and_twenty_eight_kibibytes_of_stack_are_enough() {
    let thread = on_small_stack(|| decodes_the_longest_row(7));
    thread.join().expect("the calls were done");
}

#[test]
fn threads_do_not_meet() {
    let call = |symbol| move || (0..20).for_each(|_| decodes_the_longest_row(symbol));
    let threads: Vec<_> = (1..=4).map(|symbol| on_small_stack(call(symbol))).collect();
    for thread in threads {
        thread.join().expect("the calls were done");
    }
}
