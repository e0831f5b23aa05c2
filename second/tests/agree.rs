//! The methods of this package agree with each other: all messages with Euclid's algorithm, and both with elimination.

use second::call::{Call, Kind, Outcome};
use second::frame;
use second::generate::codes::{self, Sizes};
use second::generate::{case, damage};
use second::plain;
use second::random::Random;
use second::reference::code::LONGEST_ROW;
use second::reference::{self, decode, euclid, search};

/// The outcome of a call to the plain encoder or decoder.
fn run_plain(call: &Call) -> Outcome {
    let [m, r, k] = call.numbers[..] else {
        panic!("encode and decode take a code");
    };
    let mut buffers = call.buffers.clone();
    let (points, symbols) = (&call.inputs[0], &call.inputs[1]);
    let answer = match &mut buffers[..] {
        [row] => plain::encode(m, r, k, points, symbols, row),
        [message, depths] => plain::decode(m, r, k, points, symbols, message, depths),
        _ => panic!("encode and decode have one buffer or two"),
    };
    let (number, detail) = match answer {
        Ok(detail) => (0, detail),
        Err(refused) => (refused.number, refused.place),
    };
    Outcome::plain(number, detail, buffers)
}

#[test]
fn elimination_agrees_with_the_reference() {
    let mut seen = [0; 10];
    for index in 0..60_000 {
        let call = case(3, index).call;
        if matches!(call.kind, Kind::Encode | Kind::Decode) {
            let outcome = run_plain(&call);
            assert_eq!(outcome, reference::run(&call), "{call:?}");
            seen[usize::from(outcome.answer.number)] += 1;
        }
    }
    assert!(seen.iter().all(|count| *count >= 100), "{seen:?}");
}

#[test]
fn euclid_agrees_with_trying_all_messages() {
    let mut random = Random::new(4);
    let (mut accepted, mut refused) = (0, 0);
    while accepted < 3000 || refused < 3000 {
        let code = codes::code(&mut random, Sizes::MostlyShort, LONGEST_ROW);
        if !search::is_small(&code) {
            continue;
        }
        let row = damage::received(&mut random, &code).row;
        let candidate = euclid::candidate(&code, &row);
        let found = candidate.and_then(|message| decode::measure(&code, &row, message));
        let message = found.map(|found| found.message);
        assert_eq!(message, search::nearest(&code, &row), "{code:?} {row:?}");
        match message {
            Some(_) => accepted += 1,
            None => refused += 1,
        }
    }
}

#[test]
fn a_sent_row_damaged_within_the_radius_gives_its_message() {
    let mut random = Random::new(5);
    for _ in 0..3000 {
        let code = codes::code(&mut random, Sizes::MostlyShort, LONGEST_ROW);
        let message = damage::message(&mut random, &code);
        let mut row = reference::rows::row_of(&code, &message);
        let total = random.between(0, code.radius());
        damage::damage(&mut random, &code, &mut row, total);
        let found = decode::find(&code, &row).expect("a message within the radius");
        assert_eq!((found.total(), found.message), (total, message));
    }
}

#[test]
fn frames_are_read_back() {
    let mut file = Vec::new();
    let calls: Vec<Call> = (0..2000).map(|index| case(6, index).call).collect();
    for call in &calls {
        frame::write(call, &mut file);
    }
    let mut rest = &file[..];
    for call in &calls {
        let (read, behind) = frame::read(rest).expect("a whole frame");
        assert_eq!(read, *call);
        rest = behind;
    }
    assert!(rest.is_empty());
}
