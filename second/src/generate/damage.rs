//! Received rows: sent rows, rows damaged to a chosen depth, rows between two messages, and random rows.

use crate::random::Random;
use crate::reference::code::Code;
use crate::reference::poly::Poly;
use crate::reference::rows::{chunk_distances, row_of};

/// A received row, and whether it is a sent row damaged to one more than the radius.
pub struct Received {
    pub row: Vec<u8>,
    pub just_beyond: bool,
}

pub fn message(random: &mut Random, code: &Code) -> Vec<u8> {
    let mut message = random.symbols(code.k, code.field.size());
    match random.below(20) {
        0 => message.fill(0),
        1 => {
            let from = random.below(code.k);
            message[from..].fill(0);
        }
        _ => (),
    }
    message
}

pub fn received(random: &mut Random, code: &Code) -> Received {
    let radius = code.radius();
    let choice = random.below(100);
    let row = match choice {
        0..10 => sent(random, code),
        10..25 => damaged(random, code, 0, radius),
        25..45 => damaged(random, code, radius, radius),
        45..70 => damaged(random, code, radius + 1, radius + 1),
        70..80 => damaged(random, code, radius + 1, code.row_length()),
        80..90 => between_two(random, code),
        _ => random.symbols(code.row_length(), code.field.size()),
    };
    Received {
        row,
        just_beyond: (45..70).contains(&choice),
    }
}

fn sent(random: &mut Random, code: &Code) -> Vec<u8> {
    row_of(code, &message(random, code))
}

/// A sent row damaged to a total depth from `least` to `most`.
fn damaged(random: &mut Random, code: &Code, least: usize, most: usize) -> Vec<u8> {
    let mut row = sent(random, code);
    let total = random.between(least, most);
    damage(random, code, &mut row, total);
    row
}

/// Damages `row` so that its distance to what it was is exactly `total`.
pub fn damage(random: &mut Random, code: &Code, row: &mut [u8], total: usize) {
    let depths = depths(random, code, total);
    for (chunk, depth) in row.chunks_mut(code.r).zip(depths) {
        damage_chunk(random, code.field.size(), chunk, depth);
    }
}

/// A depth of damage for each chunk, with the sum `total`.
fn depths(random: &mut Random, code: &Code, total: usize) -> Vec<usize> {
    let mut depths = vec![0; code.points.len()];
    let mut left = total;
    while left > 0 {
        let chunk = random.below(depths.len());
        let room = (code.r - depths[chunk]).min(left);
        if room > 0 {
            let deeper = random.between(1, room);
            depths[chunk] += deeper;
            left -= deeper;
        }
    }
    depths
}

/// Changes one symbol, and any of those behind it, so that agreement ends at r - depth.
fn damage_chunk(random: &mut Random, size: usize, chunk: &mut [u8], depth: usize) {
    if depth == 0 {
        return;
    }
    let agreement = chunk.len() - depth;
    let (first, behind) = chunk[agreement..].split_at_mut(1);
    first[0] ^= random.between(1, size - 1) as u8;
    for symbol in behind {
        if random.percent(50) {
            *symbol = random.below(size) as u8;
        }
    }
}

/// A row made of whole chunks of two sent rows at the least distance that two sent rows can have.
fn between_two(random: &mut Random, code: &Code) -> Vec<u8> {
    let first = message(random, code);
    let step = least_difference(random, code);
    let second: Vec<u8> = first.iter().zip(&step).map(|(a, b)| a ^ b).collect();
    let mut row = row_of(code, &first);
    let other = row_of(code, &second);
    let apart: Vec<usize> = chunk_distances(code.r, &row, &other).collect();
    let mut order: Vec<usize> = (0..apart.len()).collect();
    random.shuffle(&mut order);
    let mut left = code.radius() + 1;
    for chunk in order {
        if apart[chunk] <= left {
            left -= apart[chunk];
            let symbols = chunk * code.r..(chunk + 1) * code.r;
            row[symbols.clone()].copy_from_slice(&other[symbols]);
        }
    }
    row
}

/// A message whose row has k - 1 leading zeros in all, over its chunks: it is that near to the zero row.
fn least_difference(random: &mut Random, code: &Code) -> Vec<u8> {
    let field = code.field;
    let zeros = depths(random, code, code.k - 1);
    let mut product = Poly::new(vec![random.between(1, field.size() - 1) as u8]);
    for (point, zeros) in code.points.iter().zip(zeros) {
        for _ in 0..zeros {
            product = product.times_root(field, *point);
        }
    }
    let mut message = product.coefficients().to_vec();
    message.resize(code.k, 0);
    message
}

#[cfg(test)]
mod tests {
    use super::*;
    use crate::generate::codes::{self, Sizes};
    use crate::reference::code::LONGEST_ROW;
    use crate::reference::rows::row_distance;

    #[test]
    fn damage_has_the_depth_asked_for() {
        let mut random = Random::new(1);
        for _ in 0..2000 {
            let code = codes::code(&mut random, Sizes::Even, LONGEST_ROW);
            let row = sent(&mut random, &code);
            let total = random.between(0, code.row_length());
            let mut hurt = row.clone();
            damage(&mut random, &code, &mut hurt, total);
            assert_eq!(row_distance(code.r, &row, &hurt), total);
        }
    }

    #[test]
    fn the_least_difference_is_one_more_than_n_less_k() {
        let mut random = Random::new(2);
        for _ in 0..300 {
            let code = codes::code(&mut random, Sizes::Even, LONGEST_ROW);
            let row = row_of(&code, &least_difference(&mut random, &code));
            let zero = vec![0; row.len()];
            let distance = row_distance(code.r, &row, &zero);
            assert_eq!(distance, code.row_length() - code.k + 1);
        }
    }
}
