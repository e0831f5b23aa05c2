//! Slips as strings of bits, and the calls that write and read them.
//!
//! No place and no width of a number is worked out: the header of an edition is a picture, a letter for each of its bits.

use super::code::{check_distinct, Code};
use super::field::Field;
use super::refusal::Refusal;
use crate::call::Header;

/// Fewer bytes than these are short, whatever their edition.
const LEAST_BYTES: usize = 3;

/// An edition: its number, the picture of its header, and the longest row that it holds.
///
/// In the picture E is a bit of the edition, F of the field, R of r - 1, P of n' - 1, K of k - 1, and 0 a bit that is 0.
struct Edition {
    number: usize,
    header: &'static str,
    longest_row: usize,
}

const EDITIONS: [Edition; 2] = [
    Edition {
        number: 1,
        header: "EEEE FF RRR PPPPPPP KKKKKKK 0",
        longest_row: 128,
    },
    Edition {
        number: 2,
        header: "EEEE FF RRR PPPPPPPP KKKKKKKK 0000000",
        longest_row: 240,
    },
];

impl Edition {
    fn of(number: usize) -> Result<&'static Edition, Refusal> {
        let mut editions = EDITIONS.iter();
        let found = editions.find(|edition| edition.number == number);
        found.ok_or(Refusal::Edition)
    }

    /// The letter of each number in the header and how many bits it has, in their order.
    fn parts(&self) -> impl Iterator<Item = (char, usize)> {
        let letters = |part: &str| (part.chars().next().unwrap_or('0'), part.len());
        self.header.split(' ').map(letters)
    }

    fn header_bytes(&self) -> usize {
        self.parts().map(|(_, width)| width).sum::<usize>() / 8
    }
}

/// What stands in a slip, fit for a code or not.
#[derive(Clone, Debug, PartialEq, Eq)]
pub struct Slip {
    pub header: Header,
    pub points: Vec<u8>,
    pub row: Vec<u8>,
}

/// The bytes of a slip: its header, and as many as the points and symbols fill.
fn size(edition: &Edition, header: Header) -> usize {
    let Header { m, r, count, .. } = header;
    edition.header_bytes() + ((count + r * count) * m).div_ceil(8)
}

/// The bytes of a slip. Nothing is checked but that there is its edition, and that the numbers fit their places.
pub fn pack(slip: &Slip) -> Vec<u8> {
    let Header {
        edition,
        m,
        r,
        count,
        k,
    } = slip.header;
    let mut bits = String::new();
    for (letter, width) in Edition::of(edition).expect("an edition").parts() {
        let number = match letter {
            'E' => edition,
            'F' => field_code(m),
            'R' => r - 1,
            'P' => count - 1,
            'K' => k - 1,
            _ => 0,
        };
        push(&mut bits, number, width);
    }
    for symbol in slip.points.iter().chain(&slip.row) {
        push(&mut bits, usize::from(*symbol), m);
    }
    while bits.len() % 8 != 0 {
        bits.push('0');
    }
    let bytes = bits.as_bytes().chunks(8);
    bytes.map(|byte| number_of(byte) as u8).collect()
}

fn field_code(m: usize) -> usize {
    match m {
        2 => 0,
        4 => 1,
        8 => 2,
        _ => panic!("m = {m} has no field code"),
    }
}

/// Appends the binary digits of `number`, `width` of them.
fn push(bits: &mut String, number: usize, width: usize) {
    assert!(number < 1 << width, "{number} needs more than {width} bits");
    bits.push_str(&format!("{number:0width$b}"));
}

fn number_of(bits: &[u8]) -> usize {
    bits.iter()
        .fold(0, |number, bit| 2 * number + usize::from(*bit == b'1'))
}

/// A string of bits that is read from its front.
struct Reader {
    bits: String,
    at: usize,
}

impl Reader {
    fn new(bytes: &[u8]) -> Reader {
        let bits = bytes.iter().map(|byte| format!("{byte:08b}")).collect();
        Reader { bits, at: 0 }
    }

    fn take(&mut self, width: usize) -> usize {
        let number = number_of(&self.bits.as_bytes()[self.at..self.at + width]);
        self.at += width;
        number
    }

    fn symbols(&mut self, count: usize, m: usize) -> Vec<u8> {
        (0..count).map(|_| self.take(m) as u8).collect()
    }
}

/// The slip in `bytes`, refused as the reader refuses it, but for its buffers.
///
/// Which bits hold nothing is not worked out: what was read is packed again, and other bytes than these are refused.
pub fn unpack(bytes: &[u8]) -> Result<Slip, Refusal> {
    if bytes.len() < LEAST_BYTES {
        return Err(Refusal::SlipShort);
    }
    let edition = Edition::of(usize::from(bytes[0] >> 4))?;
    if bytes.len() < edition.header_bytes() {
        return Err(Refusal::SlipShort);
    }
    let mut reader = Reader::new(bytes);
    let header = unpack_header(edition, &mut reader)?;
    let Header { m, r, count, .. } = header;
    match bytes.len().cmp(&size(edition, header)) {
        std::cmp::Ordering::Less => return Err(Refusal::SlipShort),
        std::cmp::Ordering::Equal => (),
        std::cmp::Ordering::Greater => return Err(Refusal::SlipLong),
    }
    let points = reader.symbols(count, m);
    let row = reader.symbols(r * count, m);
    let slip = Slip {
        header,
        points,
        row,
    };
    if pack(&slip) != bytes {
        return Err(Refusal::SlipBits);
    }
    check_distinct(&slip.points)?;
    Ok(slip)
}

/// The numbers of the header: 1, 3 and 4 are tried in that order.
fn unpack_header(edition: &Edition, reader: &mut Reader) -> Result<Header, Refusal> {
    let mut header = Header::default();
    let mut field_code = 0;
    for (letter, width) in edition.parts() {
        let number = reader.take(width);
        match letter {
            'E' => header.edition = number,
            'F' => field_code = number,
            'R' => header.r = number + 1,
            'P' => header.count = number + 1,
            'K' => header.k = number + 1,
            _ => (),
        }
    }
    header.m = *[2, 4, 8].get(field_code).ok_or(Refusal::Field)?;
    let field = Field::of(header.m).ok_or(Refusal::Field)?;
    let n = header.r * header.count;
    if header.count > field.size() || n > edition.longest_row {
        return Err(Refusal::Points);
    }
    if header.k > n {
        return Err(Refusal::MessageLength);
    }
    Ok(header)
}

/// The call that writes a slip.
pub fn write(
    edition: usize,
    m: usize,
    r: usize,
    k: usize,
    points: &[u8],
    row: &[u8],
    bytes: &mut [u8],
) -> Result<usize, Refusal> {
    let known = Edition::of(edition)?;
    let code = Code::check_within(known.longest_row, m, r, k, points)?;
    let header = Header {
        edition,
        m,
        r,
        count: points.len(),
        k,
    };
    let size = size(known, header);
    if row.len() != code.row_length() || bytes.len() < size {
        return Err(Refusal::Length);
    }
    code.check_symbols(row)?;
    let slip = Slip {
        header,
        points: points.to_vec(),
        row: row.to_vec(),
    };
    bytes[..size].copy_from_slice(&pack(&slip));
    Ok(size)
}

/// The call that reads a slip.
pub fn read(bytes: &[u8], points: &mut [u8], row: &mut [u8]) -> Result<Header, Refusal> {
    let slip = unpack(bytes)?;
    if points.len() < slip.points.len() || row.len() < slip.row.len() {
        return Err(Refusal::Length);
    }
    points[..slip.points.len()].copy_from_slice(&slip.points);
    row[..slip.row.len()].copy_from_slice(&slip.row);
    Ok(slip.header)
}

#[cfg(test)]
mod tests {
    use super::*;
    use crate::generate::slips;
    use crate::random::Random;

    fn size_of(edition: usize, m: usize, r: usize, count: usize) -> usize {
        let header = Header {
            edition,
            m,
            r,
            count,
            k: 1,
        };
        size(Edition::of(edition).unwrap(), header)
    }

    #[test]
    fn the_six_and_the_seven_bytes_hold_the_row_worked_by_hand() {
        let bytes: [&[u8]; 2] = [
            &[0x10, 0x83, 0x06, 0x1b, 0x73, 0xb8],
            &[0x20, 0x81, 0x81, 0x80, 0x1b, 0x73, 0xb8],
        ];
        for (edition, bytes) in (1..).zip(bytes) {
            let slip = Slip {
                header: Header {
                    edition,
                    m: 2,
                    r: 2,
                    count: 4,
                    k: 4,
                },
                points: vec![0, 1, 2, 3],
                row: vec![1, 3, 0, 3, 2, 3, 2, 0],
            };
            assert_eq!(pack(&slip), bytes);
            assert_eq!(unpack(bytes), Ok(slip));
        }
    }

    #[test]
    fn the_longest_slips_have_259_and_484_bytes() {
        assert_eq!(size_of(1, 8, 1, 128), 259);
        assert_eq!(size_of(1, 8, 8, 16), 147);
        assert_eq!(size_of(1, 2, 1, 1), 4);
        assert_eq!(size_of(2, 8, 1, 240), 484);
        assert_eq!(size_of(2, 8, 8, 30), 274);
        assert_eq!(size_of(2, 2, 1, 1), 5);
    }

    #[test]
    fn zero_bits_and_fill_must_be_0() {
        let good = [vec![0x10, 0, 0, 0x10], vec![0x20, 0, 0, 0, 0x10]];
        let loose = [
            vec![23, 28, 29, 30, 31],
            vec![25, 26, 27, 28, 29, 30, 31, 36, 37, 38, 39],
        ];
        for (good, loose) in good.iter().zip(loose) {
            let slip = unpack(good).unwrap();
            assert_eq!((&slip.points[..], &slip.row[..]), (&[0][..], &[1][..]));
            for bit in loose {
                let mut bytes = good.clone();
                slips::flip(&mut bytes, bit);
                assert_eq!(unpack(&bytes), Err(Refusal::SlipBits), "{bytes:02x?}");
            }
        }
    }

    /// The numbers of a header that is too short for its edition are not looked at.
    #[test]
    fn three_bytes_of_edition_2_are_short_whatever_they_say() {
        for bytes in [[0x20, 0, 0], [0x2c, 0, 0], [0x2f, 0xff, 0xff]] {
            assert_eq!(unpack(&bytes), Err(Refusal::SlipShort), "{bytes:02x?}");
        }
        assert_eq!(unpack(&[0x2c, 0, 0, 0]), Err(Refusal::Field));
        assert_eq!(unpack(&[0x30, 0, 0]), Err(Refusal::Edition));
        assert_eq!(unpack(&[0x30, 0]), Err(Refusal::SlipShort));
    }

    /// Bits of points and row are never called loose, and the bits that are drawn as loose ones always are.
    #[test]
    fn loose_bits_are_those_that_hold_nothing() {
        let mut random = Random::new(10);
        for _ in 0..300 {
            let slip = slips::written(&mut random);
            let good = pack(&slip);
            let loose = slips::loose_bits(slip.header);
            for bit in loose[0]..8 * good.len() {
                let mut bytes = good.clone();
                slips::flip(&mut bytes, bit);
                let refused = unpack(&bytes) == Err(Refusal::SlipBits);
                assert_eq!(refused, loose.contains(&bit), "bit {bit} of {good:02x?}");
            }
        }
    }
}
