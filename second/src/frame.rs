//! The frame of a call: one byte for the call, its numbers in 8 bytes each, then every slice behind its length in 2 bytes.
//!
//! All numbers are little-endian. Inputs come first, then the buffers with their first contents, each in argument order.

use crate::call::{Call, Kind};

/// Appends the frame of `call` to `out`.
pub fn write(call: &Call, out: &mut Vec<u8>) {
    out.push(call.kind as u8);
    for number in &call.numbers {
        out.extend((*number as u64).to_le_bytes());
    }
    for slice in call.inputs.iter().chain(&call.buffers) {
        let length = u16::try_from(slice.len()).expect("slices in a frame are short");
        out.extend(length.to_le_bytes());
        out.extend(slice);
    }
}

/// The call whose frame stands at the front of `bytes`, and what stands behind it.
pub fn read(bytes: &[u8]) -> Option<(Call, &[u8])> {
    let (first, mut rest) = bytes.split_first()?;
    let kind = Kind::from_byte(*first)?;
    let shape = kind.shape();
    let numbers = (0..shape.numbers).map(|_| read_number(&mut rest));
    let numbers = numbers.collect::<Option<Vec<_>>>()?;
    let inputs = read_slices(shape.inputs, &mut rest)?;
    let buffers = read_slices(shape.buffers, &mut rest)?;
    let call = Call {
        kind,
        numbers,
        inputs,
        buffers,
    };
    Some((call, rest))
}

fn read_number(rest: &mut &[u8]) -> Option<usize> {
    let (bytes, behind) = rest.split_first_chunk()?;
    *rest = behind;
    usize::try_from(u64::from_le_bytes(*bytes)).ok()
}

fn read_slices(count: usize, rest: &mut &[u8]) -> Option<Vec<Vec<u8>>> {
    (0..count).map(|_| read_slice(rest)).collect()
}

fn read_slice(rest: &mut &[u8]) -> Option<Vec<u8>> {
    let (length, behind) = rest.split_first_chunk()?;
    let (slice, behind) = behind.split_at_checked(u16::from_le_bytes(*length).into())?;
    *rest = behind;
    Some(slice.to_vec())
}

#[cfg(test)]
mod tests {
    use super::*;

    #[test]
    fn a_frame_has_the_bytes_that_its_description_says() {
        let call = Call {
            kind: Kind::Distance,
            numbers: vec![0x0102],
            inputs: vec![vec![7, 8], vec![]],
            buffers: vec![],
        };
        let mut bytes = Vec::new();
        write(&call, &mut bytes);
        assert_eq!(bytes, [3, 2, 1, 0, 0, 0, 0, 0, 0, 2, 0, 7, 8, 0, 0]);
        assert_eq!(read(&bytes), Some((call, &[][..])));
    }

    #[test]
    fn a_cut_frame_is_no_call() {
        let whole = [3, 2, 1, 0, 0, 0, 0, 0, 0, 2, 0, 7, 8, 0, 0];
        for length in 0..whole.len() {
            assert_eq!(read(&whole[..length]), None);
        }
        assert_eq!(read(&[99]), None);
    }
}
