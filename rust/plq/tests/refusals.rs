//! Each refusal comes through with its number and place, and a refused call keeps its buffers.

use plq::{decode, distance, encode, line, slip_read, slip_write, Code, Refusal, MAX_SLIP};

fn code(m: usize, r: usize, k: usize, points: &[u8]) -> Code<'_> {
    Code { m, r, k, points }
}

/// The refusal of an encode call, whose buffer must be kept.
fn refusal(code: Code, message: &[u8], room: usize) -> Option<Refusal> {
    let mut row = vec![0xEE; room];
    let refusal = encode(code, message, &mut row).err();
    assert!(row.iter().all(|byte| *byte == 0xEE));
    refusal
}

#[test]
fn encode_refuses_with_1_to_8() {
    let cases = [
        (code(3, 1, 1, &[0]), vec![0], 1, Refusal::Field),
        (code(2, 9, 0, &[0]), vec![], 9, Refusal::Depth),
        (code(2, 1, 1, &[]), vec![0], 0, Refusal::Points),
        (code(2, 1, 2, &[0]), vec![0, 0], 1, Refusal::MessageLength),
        (
            code(2, 1, 1, &[0, 4]),
            vec![0],
            2,
            Refusal::PointHigh { index: 1 },
        ),
        (
            code(2, 1, 1, &[0, 0]),
            vec![0],
            1,
            Refusal::PointTwice { index: 1 },
        ),
        (code(2, 1, 1, &[0, 1]), vec![4], 1, Refusal::Length),
        (
            code(2, 1, 2, &[0, 1]),
            vec![3, 4],
            2,
            Refusal::SymbolHigh { index: 1 },
        ),
    ];
    for (number, (code, message, room, expected)) in (1..).zip(cases) {
        assert_eq!(refusal(code, &message, room), Some(expected));
        assert_eq!(expected.number(), number);
    }
}

#[test]
fn extreme_numbers_are_refused() {
    let huge = [usize::MAX, 1 << 63, (1 << 32) + 2, 258];
    for number in huge {
        let one = [1];
        assert_eq!(
            refusal(code(number, 2, 1, &one), &[0], 2),
            Some(Refusal::Field)
        );
        assert_eq!(
            refusal(code(2, number, 1, &one), &[0], 2),
            Some(Refusal::Depth)
        );
        assert_eq!(
            refusal(code(2, 2, number, &one), &[0], 2),
            Some(Refusal::MessageLength)
        );
    }
}

#[test]
fn decode_refuses_a_row_too_far() {
    let (mut message, mut depths) = ([0xEE; 2], [0xEE; 3]);
    let code = code(2, 1, 2, &[0, 1, 2]);
    let answer = decode(code, &[0, 0, 1], &mut message, &mut depths);
    assert_eq!(answer, Err(Refusal::TooFar));
    assert_eq!((message, depths), ([0xEE; 2], [0xEE; 3]));
}

#[test]
fn distance_refuses_with_2_and_7() {
    assert_eq!(distance(0, &[], &[]), Err(Refusal::Depth));
    assert_eq!(distance(1, &[], &[]), Err(Refusal::Length));
    assert_eq!(distance(1, &[0; 240], &[0; 240]), Ok(0));
    assert_eq!(distance(1, &[0; 241], &[0; 241]), Err(Refusal::Length));
}

#[test]
fn the_reader_refuses_in_its_own_order() {
    let read = |bytes: &[u8]| slip_read(bytes, &mut [0xEE; 1], &mut [0xEE; 1]).err();
    assert_eq!(read(&[]), Some(Refusal::SlipShort));
    assert_eq!(read(&[0x30, 0, 0]), Some(Refusal::SlipEdition));
    // Field code 3, but too short for a header of edition 2.
    assert_eq!(read(&[0x2C, 0, 0]), Some(Refusal::SlipShort));
    assert_eq!(read(&[0x2C, 0, 0, 0]), Some(Refusal::Field));
    assert_eq!(read(&[0x1C, 0, 0]), Some(Refusal::Field));
    // 5 points in the field of 4.
    assert_eq!(read(&[0x10, 4, 0]), Some(Refusal::Points));
    // One symbol in the row, two in the message.
    assert_eq!(read(&[0x10, 0, 2]), Some(Refusal::MessageLength));
    assert_eq!(read(&[0x10, 0, 0]), Some(Refusal::SlipShort));
    assert_eq!(read(&[0x10, 0, 0, 0, 0]), Some(Refusal::SlipLong));
    assert_eq!(read(&[0x10, 0, 1, 0, 0]), Some(Refusal::SlipLong));
    // Points 1 and 1, buffers for one point, and the spare bit.
    assert_eq!(read(&[0x10, 1, 1, 0x50]), Some(Refusal::SlipBits));
    // Points 1 and 1, and buffers for one point.
    assert_eq!(
        read(&[0x10, 1, 0, 0x50]),
        Some(Refusal::PointTwice { index: 1 })
    );
    // Points 0 and 1.
    assert_eq!(read(&[0x10, 1, 0, 0x10]), Some(Refusal::Length));
}

/// The spare bit of edition 1, each of the seven zero bits of edition 2, and each of the four fill bits of the smallest slip: the
/// point 0 and the symbol 1 of 2 bits each.
#[test]
fn a_bit_that_holds_nothing_is_refused_and_buffers_are_kept() {
    let fill = |place| [8, 4, 2, 1, 15].map(|bits| (place, bits)).into_iter();
    let zeros = (0..7).map(|bit| (3, 1 << bit));
    let old = fill(3)
        .chain([(2, 1)])
        .map(|change| (vec![0x10, 0, 0, 0x10], change));
    let new = fill(4)
        .chain(zeros)
        .map(|change| (vec![0x20, 0, 0, 0, 0x10], change));
    for (good, (place, bits)) in old.chain(new) {
        let (mut points, mut row) = ([0xEE; 1], [0xEE; 1]);
        let mut slip = good.clone();
        slip[place] |= bits;
        let answer = slip_read(&slip, &mut points, &mut row);
        assert_eq!(answer, Err(Refusal::SlipBits), "{slip:02x?}");
        assert_eq!((points, row), ([0xEE; 1], [0xEE; 1]));
        let mut text = [0xEE; 6];
        assert_eq!(line(&slip, &mut text), Ok(5), "{slip:02x?}");
        assert_eq!(&text, b"13 0\n\xEE");
        assert!(slip_read(&good, &mut points, &mut row).is_ok());
        assert_eq!((points, row), ([0], [1]));
    }
}

/// 11 is tried first, and edition 1 keeps 128 symbols.
#[test]
fn the_writer_is_told_an_edition() {
    let points: Vec<u8> = (0..=255).collect();
    let mut bytes = [0xEE; MAX_SLIP];
    let huge = [usize::MAX, 1 << 63, (1 << 32) + 2, 257, 258];
    for edition in (0..18)
        .filter(|edition| !matches!(edition, 1 | 2))
        .chain(huge)
    {
        let answer = slip_write(edition, code(3, 9, 0, &[]), &[9], &mut bytes);
        assert_eq!(answer, Err(Refusal::SlipEdition), "{edition}");
    }
    for (edition, count) in [(1, 129), (1, 240), (2, 241)] {
        let answer = slip_write(
            edition,
            code(8, 1, 1, &points[..count]),
            &points[..count],
            &mut bytes,
        );
        assert_eq!(answer, Err(Refusal::Points), "{count} in edition {edition}");
    }
    assert_eq!(bytes, [0xEE; MAX_SLIP]);
    for (edition, count, size) in [(1, 128, 259), (2, 128, 260), (2, 129, 262), (2, 240, 484)] {
        let answer = slip_write(
            edition,
            code(8, 1, 1, &points[..count]),
            &points[..count],
            &mut bytes,
        );
        assert_eq!(answer, Ok(size), "{count} in edition {edition}");
    }
}

#[test]
fn a_short_buffer_is_refused_and_kept() {
    let mut bytes = [0xEE; 3];
    let answer = slip_write(1, code(2, 1, 1, &[0]), &[3], &mut bytes);
    assert_eq!((answer, bytes), (Err(Refusal::Length), [0xEE; 3]));
    let mut text = [0xEE; 4];
    assert_eq!(line(&[], &mut text), Err(Refusal::Length));
    assert_eq!(text, [0xEE; 4]);
}

#[test]
fn a_longer_buffer_keeps_the_rest() {
    let mut bytes = [0xEE; 6];
    assert_eq!(slip_write(1, code(2, 1, 1, &[0]), &[3], &mut bytes), Ok(4));
    assert_eq!(bytes, [0x10, 0, 0, 0x30, 0xEE, 0xEE]);
    assert_eq!(slip_write(2, code(2, 1, 1, &[0]), &[3], &mut bytes), Ok(5));
    assert_eq!(bytes, [0x20, 0, 0, 0, 0x30, 0xEE]);
}
