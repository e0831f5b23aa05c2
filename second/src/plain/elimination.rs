//! The pair Q0, Q1 with Q0 + W Q1 = 0 to depth r at every point, by elimination in one flat matrix.

use super::tables::Tables;
use super::DEEPEST;

/// The coefficients of Q0 and Q1, or nothing where only the zero pair meets the equations.
pub fn find_pair(
    tables: &Tables,
    points: &[u8],
    r: usize,
    k: usize,
    row: &[u8],
) -> Option<(Vec<u8>, Vec<u8>)> {
    let n = row.len();
    let above = (n + k) / 2;
    let columns = above + (n - k) / 2 + 1;
    let mut matrix = vec![0; n * columns];
    let blocks = matrix.chunks_exact_mut(r * columns);
    for ((block, point), chunk) in blocks.zip(points).zip(row.chunks_exact(r)) {
        write_equations(tables, *point, chunk, above, columns, block);
    }
    let free = eliminate(tables, &mut matrix, columns)?;
    let mut solution = solve(tables, &matrix, columns, free);
    let below = solution.split_off(above);
    Some((solution, below))
}

/// Writes the r equations of one chunk, one in each row of `block`.
///
/// The column of x^a in Q0 holds its first r coefficients in powers of (x - point); from one power to the next these
/// are multiplied by x = point + (x - point). The column of x^b in Q1 holds those of x^b times the chunk.
fn write_equations(
    tables: &Tables,
    point: u8,
    chunk: &[u8],
    above: usize,
    columns: usize,
    block: &mut [u8],
) {
    let r = chunk.len();
    let times_point = tables.products_of(point);
    let mut power = [0u8; DEEPEST];
    power[0] = 1;
    let mut weighted = [0u8; DEEPEST];
    weighted[..r].copy_from_slice(chunk);
    for column in 0..columns {
        let term = if column < above {
            &mut power
        } else {
            &mut weighted
        };
        for depth in 0..r {
            block[depth * columns + column] = term[depth];
        }
        for depth in (1..r).rev() {
            term[depth] = times_point[usize::from(term[depth])] ^ term[depth - 1];
        }
        term[0] = times_point[usize::from(term[0])];
    }
}

/// Brings the matrix to triangular form with ones as pivots, and stops at the first column that depends on those
/// before it.
fn eliminate(tables: &Tables, matrix: &mut [u8], columns: usize) -> Option<usize> {
    let rows = matrix.len() / columns;
    for column in 0..columns {
        let pivot = (column..rows).find(|row| matrix[row * columns + column] != 0);
        let Some(pivot) = pivot else {
            return Some(column);
        };
        let (top, rest) = matrix[column * columns..].split_at_mut(columns);
        if pivot > column {
            let offset = (pivot - column - 1) * columns;
            top.swap_with_slice(&mut rest[offset..offset + columns]);
        }
        let top = &mut top[column..];
        let times_inverse = tables.products_of(tables.inverse(top[0]));
        for entry in top.iter_mut() {
            *entry = times_inverse[usize::from(*entry)];
        }
        for row in rest.chunks_exact_mut(columns) {
            subtract_multiple(tables, &mut row[column..], top);
        }
    }
    None
}

/// Takes that multiple of `top`, which begins with 1, off `row` that makes its first entry 0.
fn subtract_multiple(tables: &Tables, row: &mut [u8], top: &[u8]) {
    let factor = row[0];
    if factor == 0 {
        return;
    }
    let times_factor = tables.products_of(factor);
    for (entry, pivot_entry) in row.iter_mut().zip(top) {
        *entry ^= times_factor[usize::from(*pivot_entry)];
    }
}

/// The solution that is 1 at the free column and 0 behind it, by substitution from the bottom up.
fn solve(tables: &Tables, matrix: &[u8], columns: usize, free: usize) -> Vec<u8> {
    let mut solution = vec![0; columns];
    solution[free] = 1;
    for column in (0..free).rev() {
        let row = &matrix[column * columns..(column + 1) * columns];
        let terms = row[column + 1..=free]
            .iter()
            .zip(&solution[column + 1..=free]);
        let sum = terms.fold(0, |sum, (entry, value)| {
            sum ^ tables.products_of(*entry)[usize::from(*value)]
        });
        solution[column] = sum;
    }
    solution
}
