//! Rolls taken apart: what the writer made, what is refused, and what is left.

use plq::{slip_write, slips, Code, Refusal, MAX_SLIP};

/// A slip of r symbols at each of the first `count` points.
fn slip(edition: usize, m: usize, r: usize, count: u8) -> Vec<u8> {
    let points: Vec<u8> = (0..count).collect();
    let code = Code {
        m,
        r,
        k: 1,
        points: &points,
    };
    let mut bytes = [0; MAX_SLIP];
    let row = vec![1; code.row_len()];
    let size = slip_write(edition, code, &row, &mut bytes).expect("a fine code");
    bytes[..size].to_vec()
}

#[test]
fn what_the_writer_made_is_found_again() {
    let made = [
        slip(1, 2, 1, 1),
        slip(2, 8, 1, 240),
        slip(1, 8, 1, 128),
        slip(2, 2, 1, 1),
        slip(1, 4, 8, 16),
        slip(2, 8, 8, 30),
        slip(1, 2, 8, 3),
    ];
    let roll = made.concat();
    let found: Result<Vec<&[u8]>, Refusal> = slips(&roll).collect();
    assert_eq!(found.expect("no refusal"), made);
    assert!(slips(&roll)
        .map(|slip| slip.map_or(0, <[u8]>::len))
        .eq([4, 484, 259, 5, 75, 274, 10]));
}

/// The walk does not look at bits that hold nothing; the slips found are the roll's own bytes.
#[test]
fn zero_and_fill_bits_do_not_change_the_walk() {
    let mut made = [
        slip(1, 2, 1, 1),
        slip(1, 4, 2, 3),
        slip(1, 2, 2, 4),
        slip(2, 2, 1, 1),
    ];
    for slip in &mut made[..3] {
        slip[2] |= 1; // the spare bit
    }
    made[0][3] |= 0x0F; // four bits of fill behind two symbols of 2 bits
    made[1][7] |= 0x08; // the first of four behind nine symbols of 4 bits
    made[3][3] |= 0x7F; // the seven zero bits of edition 2
    made[3][4] |= 0x0F; // and its fill
    let roll = made.concat();
    let found: Result<Vec<&[u8]>, Refusal> = slips(&roll).collect();
    assert_eq!(found.expect("no refusal"), made);
}

#[test]
fn an_empty_roll_has_no_slips() {
    let mut none = slips(&[]);
    assert_eq!((none.next(), none.next()), (None, None));
    assert!(none.rest().is_empty());
}

#[test]
fn a_refusal_ends_the_walk_once() {
    let good = slip(1, 2, 2, 4);
    let ends = [
        (vec![0x10, 0x00], Refusal::SlipShort),
        (vec![0x20, 0x00, 0x00], Refusal::SlipShort),
        (vec![0x30, 0x00, 0x00], Refusal::SlipEdition),
        (vec![0x2c, 0x00, 0x00, 0x00], Refusal::Field),
        (vec![0x28, 0x78, 0x00, 0x00], Refusal::Points),
        (vec![0x1c, 0x00, 0x00], Refusal::Field),
        (vec![0x10, 0x04, 0x00], Refusal::Points),
        (vec![0x10, 0x00, 0x02], Refusal::MessageLength),
        (vec![0x10, 0x00, 0x00], Refusal::SlipShort),
    ];
    for (end, refusal) in ends {
        let roll = [good.clone(), end.clone()].concat();
        let mut walk = slips(&roll);
        assert_eq!(walk.next(), Some(Ok(&good[..])));
        assert_eq!(walk.rest(), end);
        assert_eq!(walk.next(), Some(Err(refusal)));
        assert_eq!((walk.next(), walk.next()), (None, None));
        assert_eq!(walk.rest(), end);
    }
}
