//! A plain encoder and a plain elimination decoder, optimised as ordinary Rust is, for the figures.
//!
//! Products come from a full table of the field, the equations stand in one flat matrix, and nothing is allocated in
//! an inner loop. Both calls check their inputs as the archive does, so that both sides of a figure do the same work.

mod checks;
mod elimination;
mod tables;

use checks::Checked;
pub use checks::Refused;
use elimination::find_pair;
use tables::Tables;

/// No chunk is deeper.
const DEEPEST: usize = 8;

/// The call encode.
pub fn encode(
    m: usize,
    r: usize,
    k: usize,
    points: &[u8],
    message: &[u8],
    row: &mut [u8],
) -> Result<usize, Refused> {
    let code = Checked::new(m, r, k, points)?;
    if message.len() != k || row.len() != code.n {
        return Err(Refused::LENGTH);
    }
    code.check_symbols(message)?;
    evaluate(code.tables, points, r, message, row);
    Ok(0)
}

/// The call decode.
pub fn decode(
    m: usize,
    r: usize,
    k: usize,
    points: &[u8],
    row: &[u8],
    message: &mut [u8],
    depths: &mut [u8],
) -> Result<usize, Refused> {
    let code = Checked::new(m, r, k, points)?;
    if row.len() != code.n || message.len() != k || depths.len() != points.len() {
        return Err(Refused::LENGTH);
    }
    code.check_symbols(row)?;
    let found = nearest(&code, r, k, points, row).ok_or(Refused::TOO_FAR)?;
    let mut sent = vec![0; code.n];
    evaluate(code.tables, points, r, &found, &mut sent);
    let total: usize = (chunk_depths(r, &sent, row)).sum();
    if total > (code.n - k) / 2 {
        return Err(Refused::TOO_FAR);
    }
    message.copy_from_slice(&found);
    for (place, depth) in depths.iter_mut().zip(chunk_depths(r, &sent, row)) {
        *place = depth as u8;
    }
    Ok(total)
}

/// The quotient of the pair that the equations give, if it has k coefficients and leaves no remainder.
fn nearest(code: &Checked, r: usize, k: usize, points: &[u8], row: &[u8]) -> Option<Vec<u8>> {
    let (mut above, below) = find_pair(code.tables, points, r, k, row)?;
    divide(code.tables, &mut above, &below, k)
}

/// Writes the row of `message`. For each point Horner's rule carries all r symbols of the chunk along.
fn evaluate(tables: &Tables, points: &[u8], r: usize, message: &[u8], row: &mut [u8]) {
    for (point, chunk) in points.iter().zip(row.chunks_exact_mut(r)) {
        let times_point = tables.products_of(*point);
        let mut symbols = [0u8; DEEPEST];
        let symbols = &mut symbols[..r];
        for coefficient in message.iter().rev() {
            for depth in (1..symbols.len()).rev() {
                symbols[depth] = times_point[usize::from(symbols[depth])] ^ symbols[depth - 1];
            }
            symbols[0] = times_point[usize::from(symbols[0])] ^ coefficient;
        }
        chunk.copy_from_slice(symbols);
    }
}

/// The depth of damage in each chunk.
fn chunk_depths<'a>(r: usize, a: &'a [u8], b: &'a [u8]) -> impl Iterator<Item = usize> + 'a {
    let chunks = a.chunks_exact(r).zip(b.chunks_exact(r));
    chunks.map(move |(x, y)| r - x.iter().zip(y).take_while(|(p, q)| p == q).count())
}

/// Divides `above` by `below` in place and gives the quotient if it is exact and has degree below k.
fn divide(tables: &Tables, above: &mut [u8], below: &[u8], k: usize) -> Option<Vec<u8>> {
    let degree = below.iter().rposition(|coefficient| *coefficient != 0)?;
    let below = &below[..=degree];
    let times_inverse = tables.products_of(tables.inverse(below[degree]));
    let mut quotient = vec![0; k.max(above.len() - degree)];
    for shift in (0..above.len() - degree).rev() {
        let scalar = times_inverse[usize::from(above[shift + degree])];
        quotient[shift] = scalar;
        let times_scalar = tables.products_of(scalar);
        for (left, coefficient) in above[shift..].iter_mut().zip(below) {
            *left ^= times_scalar[usize::from(*coefficient)];
        }
    }
    let exact = above.iter().all(|left| *left == 0);
    let small = quotient[k..].iter().all(|coefficient| *coefficient == 0);
    quotient.truncate(k);
    (exact && small).then_some(quotient)
}
