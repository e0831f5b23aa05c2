//! A journey's digits are made into a row and a slip, the slip is damaged, and reading gives the digits back.
//!
//!     cargo run --offline --example journey

use plq::{decode, encode, slip_read, slip_write, Code, Refusal, MAX_ROW, MAX_SLIP};

fn main() -> Result<(), Refusal> {
    // 16-valued symbols, 6 chunks of 2: n = 12 and k = 6, so damage up to depth 3 in all is repaired.
    let code = Code {
        m: 4,
        r: 2,
        k: 6,
        points: &[0, 1, 2, 3, 4, 5],
    };
    let mut row = [0; 12];
    encode(code, &[3, 1, 4, 1, 5, 9], &mut row)?;
    let mut slip = [0; MAX_SLIP];
    let size = slip_write(1, code, &row, &mut slip)?;
    println!("slip     {:02x?}", &slip[..size]);

    // The first symbol behind the 3 bytes of header and the 6 points of 4 bits.
    slip[6] ^= 0x70;

    let (mut points, mut row) = ([0; MAX_ROW], [0; MAX_ROW]);
    let header = slip_read(&slip[..size], &mut points, &mut row)?;
    let read = Code {
        m: header.m,
        r: header.r,
        k: header.k,
        points: &points[..header.count],
    };
    let (mut message, mut depths) = ([0; 6], [0; 6]);
    let total = decode(read, &row[..read.row_len()], &mut message, &mut depths)?;
    println!("message  {message:?}");
    println!("depths   {depths:?}, {total} in all");
    Ok(())
}
