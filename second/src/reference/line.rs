//! The line that slipread prints for a slip.

use super::code::Code;
use super::decode::{find, Found};
use super::refusal::Refusal;
use super::slip::unpack;

/// The numbers that a line can begin with: done, and every refusal of the reader and the decoder.
pub const NUMBERS: [u8; 10] = [0, 1, 3, 4, 6, 9, 10, 11, 12, 13];

/// The number that a line begins with.
pub fn number(text: &[u8]) -> usize {
    let digits = text.iter().take_while(|byte| byte.is_ascii_digit());
    digits.fold(0, |number, digit| 10 * number + usize::from(digit - b'0'))
}

/// The whole line with its newline.
pub fn text(slip: &[u8]) -> String {
    match read_and_decode(slip) {
        Ok(found) => format!(
            "0 {} | {} | {}\n",
            found.total(),
            spaced(&found.message),
            spaced(&found.depths)
        ),
        Err(refusal) => format!("{} {}\n", refusal.number(), refusal.place()),
    }
}

fn read_and_decode(bytes: &[u8]) -> Result<Found, Refusal> {
    let slip = unpack(bytes)?;
    let header = slip.header;
    let code = Code::check(header.m, header.r, header.k, &slip.points)?;
    find(&code, &slip.row).ok_or(Refusal::TooFar)
}

fn spaced<T: ToString>(numbers: &[T]) -> String {
    let digits: Vec<String> = numbers.iter().map(T::to_string).collect();
    digits.join(" ")
}

/// The call line: the text at the front of the buffer, or a refusal where the buffer is too short for it.
pub fn line(slip: &[u8], buffer: &mut [u8]) -> Result<usize, Refusal> {
    let text = text(slip);
    if buffer.len() < text.len() {
        return Err(Refusal::Length);
    }
    buffer[..text.len()].copy_from_slice(text.as_bytes());
    Ok(text.len())
}

#[cfg(test)]
mod tests {
    use super::text;
    use crate::call::Header;
    use crate::reference::slip::{pack, Slip};

    #[test]
    fn the_six_and_the_seven_bytes_give_the_line_worked_by_hand() {
        let six = [0x10, 0x83, 0x06, 0x1b, 0x73, 0xb8];
        let seven = [0x20, 0x81, 0x81, 0x80, 0x1b, 0x73, 0xb8];
        assert_eq!(text(&six), "0 2 | 1 2 2 1 | 1 0 1 0\n");
        assert_eq!(text(&seven), text(&six));
    }

    #[test]
    fn the_longest_line_has_1448_bytes() {
        // With k = n every row is accepted; 255 in all of it is the row of the constant message.
        let slip = Slip {
            header: Header {
                edition: 2,
                m: 8,
                r: 1,
                count: 240,
                k: 240,
            },
            points: (0..240).collect(),
            row: vec![255; 240],
        };
        let message = format!("255{}", " 0".repeat(239));
        let depths = format!("0{}", " 0".repeat(239));
        let text = text(&pack(&slip));
        assert_eq!(text, format!("0 0 | {message} | {depths}\n"));
        // Every symbol could have the three digits that the first one has.
        assert_eq!(text.len() + 2 * 239, 1448);
    }

    #[test]
    fn a_refused_slip_gives_number_and_detail_alone() {
        assert_eq!(text(&[]), "10 0\n");
        assert_eq!(text(&[0x20, 0, 0]), "10 0\n");
        assert_eq!(text(&[0x30, 0, 0]), "11 0\n");
        assert_eq!(text(&[0x1c, 0, 0]), "1 0\n");
        assert_eq!(text(&[0x10, 0, 0, 0, 0]), "12 0\n");
        // Points 1 and 1 leave no fill; the spare bit comes first.
        assert_eq!(text(&[0x10, 1, 1, 0b0101_0000]), "13 0\n");
        // Points 1 and 1: the second equals the first.
        assert_eq!(text(&[0x10, 1, 0, 0b0101_0000]), "6 1\n");
    }
}
