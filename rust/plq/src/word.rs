//! The words that the archive answers, taken apart. No word is a reason to panic.

use crate::{Header, Refusal};

/// The detail of a done call, or its refusal; for every call but the one that reads a slip.
pub fn done(word: u64) -> Result<usize, Refusal> {
    let detail = (word >> 8) as usize;
    match Refusal::new(word as u8, detail) {
        Some(refusal) => Err(refusal),
        None => Ok(detail),
    }
}

/// The header that a done reader answers, or its refusal.
pub fn header(word: u64) -> Result<Header, Refusal> {
    let part = |shift: u32| usize::from((word >> shift) as u8);
    match Refusal::new(word as u8, part(40)) {
        Some(refusal) => Err(refusal),
        None => Ok(Header {
            edition: part(48),
            m: part(8),
            r: part(16),
            count: part(24),
            k: part(32),
        }),
    }
}

#[cfg(test)]
mod tests {
    use super::*;

    /// The numbers of the refusals that this crate knows.
    fn is_known(number: u8) -> bool {
        matches!(number, 1..=13 | 15 | 17 | 18)
    }

    #[test]
    fn every_number_comes_through_either_way() {
        for number in 1..=u8::MAX {
            let refusals = [
                done(u64::from(number) | 3 << 8).unwrap_err(),
                header(u64::from(number) | 3 << 40).unwrap_err(),
            ];
            for refusal in refusals {
                assert_eq!(refusal.number(), number);
                let unknown = Refusal::Unknown { number, detail: 3 };
                assert_eq!(refusal == unknown, !is_known(number));
            }
        }
    }

    #[test]
    fn an_unknown_number_keeps_its_detail_and_has_words() {
        let refusal = done(14 | 258 << 8).unwrap_err();
        assert_eq!((refusal.number(), refusal.detail()), (14, 258));
        assert_eq!(refusal.to_string(), "the unknown number 14, detail 258");
    }

    #[test]
    fn done_words_give_their_parts() {
        assert_eq!(done(1448 << 8), Ok(1448));
        let expected = Header {
            edition: 2,
            m: 4,
            r: 2,
            count: 3,
            k: 5,
        };
        assert_eq!(header(0x0002_0005_0302_0400), Ok(expected));
    }
}
