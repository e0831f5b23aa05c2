//! Levels from the bench, by their decimal digits: a text is never turned into a machine number, so none can be too large for it.
//!
//! A level is the number whose bits are those of a chunk's symbols, the first symbol highest. So a text is read by halving
//! decimal digits, a bit each time, and written by doubling them.

use super::code::{DEEPEST, LONGEST_ROW};
use super::field::Field;
use super::refusal::Refusal;

/// The digits of a number, the highest first, without leading zeros: 0 has none.
#[derive(Clone, Debug, Default, PartialEq, Eq)]
pub struct Decimal {
    digits: Vec<u8>,
}

impl Decimal {
    /// 2^bits.
    pub fn power_of_two(bits: usize) -> Decimal {
        let one = Decimal { digits: vec![1] };
        (0..bits).fold(one, |number, _| number.doubled_and(0))
    }

    /// The number that ASCII digits make.
    pub fn of(text: &[u8]) -> Decimal {
        let zeros = text.iter().take_while(|byte| **byte == b'0').count();
        let digits = text[zeros..].iter().map(|byte| byte - b'0');
        Decimal {
            digits: digits.collect(),
        }
    }

    pub fn text(&self) -> String {
        if self.digits.is_empty() {
            return "0".to_string();
        }
        let character = |digit: &u8| char::from(b'0' + digit);
        self.digits.iter().map(character).collect()
    }

    /// Twice the number, and a bit more.
    fn doubled_and(&self, bit: u8) -> Decimal {
        let mut carry = bit;
        let mut digits = Vec::new();
        for digit in self.digits.iter().rev() {
            let sum = digit + digit + carry;
            carry = u8::from(sum > 9);
            digits.push(if sum > 9 { sum - 10 } else { sum });
        }
        if carry > 0 {
            digits.push(carry);
        }
        digits.reverse();
        Decimal { digits }
    }

    /// Half of the number, and the bit that is left.
    fn halved(&self) -> (Decimal, u8) {
        let mut left = 0;
        let mut digits = Vec::new();
        for digit in &self.digits {
            let ten = if left > 0 { 10 } else { 0 };
            let half = (ten + digit) / 2;
            left = digit & 1;
            if half > 0 || !digits.is_empty() {
                digits.push(half);
            }
        }
        (Decimal { digits }, left)
    }

    pub fn is_below(&self, bound: &Decimal) -> bool {
        let key = |number: &Decimal| (number.digits.len(), number.digits.clone());
        key(self) < key(bound)
    }

    /// The number of some bits, the highest first.
    fn of_bits(bits: impl Iterator<Item = u8>) -> Decimal {
        bits.fold(Decimal::default(), |number, bit| number.doubled_and(bit))
    }

    /// So many bits of it, the highest first.
    fn bits(&self, count: usize) -> Vec<u8> {
        let mut number = self.clone();
        let mut bits = Vec::new();
        for _ in 0..count {
            let (half, bit) = number.halved();
            bits.push(bit);
            number = half;
        }
        bits.reverse();
        bits
    }
}

/// The level of a chunk.
pub fn level(field: Field, chunk: &[u8]) -> Decimal {
    let bits = |symbol: &u8| {
        let symbol = *symbol;
        (0..field.bits()).rev().map(move |bit| symbol >> bit & 1)
    };
    Decimal::of_bits(chunk.iter().flat_map(bits))
}

/// The chunk of a level.
fn chunk(field: Field, r: usize, level: &Decimal) -> Vec<u8> {
    let bits = level.bits(field.bits() * r);
    let symbol = |bits: &[u8]| bits.iter().fold(0, |symbol, bit| symbol << 1 | bit);
    bits.chunks(field.bits()).map(symbol).collect()
}

/// The number of a line with its newline, where it is written as it must be.
pub fn number_in(line: &[u8]) -> Option<Decimal> {
    let digits = line.strip_suffix(b"\n")?;
    let well = match digits {
        [] => false,
        [_] => digits[0].is_ascii_digit(),
        [first, ..] => *first != b'0' && digits.iter().all(u8::is_ascii_digit),
    };
    well.then(|| Decimal::of(digits))
}

/// The lines of a text, each with its newline; the last one may have none.
pub fn lines(text: &[u8]) -> impl Iterator<Item = &[u8]> {
    text.split_inclusive(|byte| *byte == b'\n')
}

/// Tries 1, 2 and 7 on the length of a row.
fn check_shape(m: usize, r: usize, length: usize) -> Result<Field, Refusal> {
    let field = Field::of(m).ok_or(Refusal::Field)?;
    if r == 0 || r > DEEPEST {
        return Err(Refusal::Depth);
    }
    if length == 0 || length > LONGEST_ROW || length % r != 0 {
        return Err(Refusal::Length);
    }
    Ok(field)
}

/// Tries 17 and 18 on a line.
fn check_line(line: &[u8], number: usize, bound: &Decimal) -> Result<Decimal, Refusal> {
    let level = number_in(line).ok_or(Refusal::LevelLine(number))?;
    if level.is_below(bound) {
        Ok(level)
    } else {
        Err(Refusal::LevelHigh(number))
    }
}

/// The call levels_read.
pub fn read(m: usize, r: usize, text: &[u8], row: &mut [u8]) -> Result<usize, Refusal> {
    let field = check_shape(m, r, row.len())?;
    let bound = Decimal::power_of_two(m * r);
    let checked = lines(text).zip(0..);
    let levels = checked.map(|(line, number)| check_line(line, number, &bound));
    let levels = levels.collect::<Result<Vec<Decimal>, Refusal>>()?;
    let symbols: Vec<u8> = levels
        .iter()
        .flat_map(|level| chunk(field, r, level))
        .collect();
    if symbols.len() != row.len() {
        return Err(Refusal::Length);
    }
    row.copy_from_slice(&symbols);
    Ok(0)
}

/// The text of a row whose symbols are elements of the field.
pub fn text_of(field: Field, r: usize, row: &[u8]) -> String {
    let line = |chunk: &[u8]| level(field, chunk).text() + "\n";
    row.chunks(r).map(line).collect()
}

/// The call levels_write.
pub fn write(m: usize, r: usize, row: &[u8], text: &mut [u8]) -> Result<usize, Refusal> {
    let field = check_shape(m, r, row.len())?;
    if let Some(place) = row.iter().position(|symbol| !field.contains(*symbol)) {
        return Err(Refusal::SymbolHigh(place));
    }
    let levels = text_of(field, r, row);
    let room = text.get_mut(..levels.len()).ok_or(Refusal::Length)?;
    room.copy_from_slice(levels.as_bytes());
    Ok(levels.len())
}

#[cfg(test)]
mod tests {
    use super::*;
    use crate::random::Random;

    /// The same numbers by machine arithmetic.
    #[test]
    fn levels_are_sums_of_symbols_times_powers_of_q() {
        let mut random = Random::new(15);
        for _ in 0..3000 {
            let field = Field::of(random.pick(&[2, 4, 8])).unwrap();
            let r = random.between(1, DEEPEST);
            let symbols = random.symbols(r, field.size());
            let weigh = |sum: u128, symbol: &u8| sum * field.size() as u128 + u128::from(*symbol);
            let sum = symbols.iter().fold(0, weigh);
            let level = level(field, &symbols);
            assert_eq!(level.text(), sum.to_string());
            assert_eq!(level, Decimal::of(sum.to_string().as_bytes()));
            assert_eq!(chunk(field, r, &level), symbols);
        }
    }

    #[test]
    fn powers_of_two_are_those_of_the_machine() {
        for bits in 0..=127 {
            let power = Decimal::power_of_two(bits);
            assert_eq!(power.text(), (1u128 << bits).to_string());
            assert!(Decimal::default().is_below(&power));
            assert!(!power.is_below(&power));
            assert!(power.is_below(&power.doubled_and(0)));
            assert_eq!(power.doubled_and(1).halved(), (power, 1));
        }
    }
}
