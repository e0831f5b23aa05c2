//! The C functions of the archive, on slices, and on buffers that end at a guard page.

use crate::call::{Call, Kind, RawCode};
use crate::guard::Guarded;

mod c {
    extern "C" {
        pub fn plq_encode(
            m: usize,
            r: usize,
            k: usize,
            points: *const u8,
            points_len: usize,
            message: *const u8,
            message_len: usize,
            row: *mut u8,
            row_len: usize,
        ) -> u64;
        pub fn plq_decode(
            m: usize,
            r: usize,
            k: usize,
            points: *const u8,
            points_len: usize,
            row: *const u8,
            row_len: usize,
            message: *mut u8,
            message_len: usize,
            depths: *mut u8,
            depths_len: usize,
        ) -> u64;
        pub fn plq_distance(
            r: usize,
            a: *const u8,
            a_len: usize,
            b: *const u8,
            b_len: usize,
        ) -> u64;
        pub fn plq_slip_write(
            edition: usize,
            m: usize,
            r: usize,
            k: usize,
            points: *const u8,
            points_len: usize,
            row: *const u8,
            row_len: usize,
            bytes: *mut u8,
            bytes_len: usize,
        ) -> u64;
        pub fn plq_slip_read(
            bytes: *const u8,
            bytes_len: usize,
            points: *mut u8,
            points_len: usize,
            row: *mut u8,
            row_len: usize,
        ) -> u64;
        pub fn plq_line(slip: *const u8, slip_len: usize, text: *mut u8, text_len: usize) -> u64;
        pub fn plq_roll_first(roll: *const u8, roll_len: usize) -> u64;
        pub fn plq_to_new(
            slip: *const u8,
            slip_len: usize,
            bytes: *mut u8,
            bytes_len: usize,
        ) -> u64;
        pub fn plq_to_old(
            slip: *const u8,
            slip_len: usize,
            bytes: *mut u8,
            bytes_len: usize,
        ) -> u64;
        pub fn plq_levels_read(
            m: usize,
            r: usize,
            text: *const u8,
            text_len: usize,
            row: *mut u8,
            row_len: usize,
        ) -> u64;
        pub fn plq_levels_write(
            m: usize,
            r: usize,
            row: *const u8,
            row_len: usize,
            text: *mut u8,
            text_len: usize,
        ) -> u64;
    }
}

// SAFETY of every call below: each pointer comes with the length of the slice it was taken from, the slices are
// borrowed for the whole call, and no function of the archive keeps a pointer.

/// A code as numbers and borrowed points.
#[derive(Clone, Copy)]
pub struct CodeRef<'a> {
    pub m: usize,
    pub r: usize,
    pub k: usize,
    pub points: &'a [u8],
}

impl<'a> From<&'a RawCode> for CodeRef<'a> {
    fn from(code: &'a RawCode) -> CodeRef<'a> {
        CodeRef {
            m: code.m,
            r: code.r,
            k: code.k,
            points: &code.points,
        }
    }
}

pub fn encode(code: CodeRef, message: &[u8], row: &mut [u8]) -> u64 {
    unsafe {
        c::plq_encode(
            code.m,
            code.r,
            code.k,
            code.points.as_ptr(),
            code.points.len(),
            message.as_ptr(),
            message.len(),
            row.as_mut_ptr(),
            row.len(),
        )
    }
}

pub fn decode(code: CodeRef, row: &[u8], message: &mut [u8], depths: &mut [u8]) -> u64 {
    unsafe {
        c::plq_decode(
            code.m,
            code.r,
            code.k,
            code.points.as_ptr(),
            code.points.len(),
            row.as_ptr(),
            row.len(),
            message.as_mut_ptr(),
            message.len(),
            depths.as_mut_ptr(),
            depths.len(),
        )
    }
}

pub fn distance(r: usize, a: &[u8], b: &[u8]) -> u64 {
    unsafe { c::plq_distance(r, a.as_ptr(), a.len(), b.as_ptr(), b.len()) }
}

pub fn slip_write(edition: usize, code: CodeRef, row: &[u8], bytes: &mut [u8]) -> u64 {
    unsafe {
        c::plq_slip_write(
            edition,
            code.m,
            code.r,
            code.k,
            code.points.as_ptr(),
            code.points.len(),
            row.as_ptr(),
            row.len(),
            bytes.as_mut_ptr(),
            bytes.len(),
        )
    }
}

pub fn slip_read(bytes: &[u8], points: &mut [u8], row: &mut [u8]) -> u64 {
    unsafe {
        c::plq_slip_read(
            bytes.as_ptr(),
            bytes.len(),
            points.as_mut_ptr(),
            points.len(),
            row.as_mut_ptr(),
            row.len(),
        )
    }
}

pub fn line(slip: &[u8], text: &mut [u8]) -> u64 {
    unsafe { c::plq_line(slip.as_ptr(), slip.len(), text.as_mut_ptr(), text.len()) }
}

pub fn roll_first(roll: &[u8]) -> u64 {
    unsafe { c::plq_roll_first(roll.as_ptr(), roll.len()) }
}

pub fn to_new(slip: &[u8], bytes: &mut [u8]) -> u64 {
    unsafe { c::plq_to_new(slip.as_ptr(), slip.len(), bytes.as_mut_ptr(), bytes.len()) }
}

pub fn to_old(slip: &[u8], bytes: &mut [u8]) -> u64 {
    unsafe { c::plq_to_old(slip.as_ptr(), slip.len(), bytes.as_mut_ptr(), bytes.len()) }
}

pub fn levels_read(m: usize, r: usize, text: &[u8], row: &mut [u8]) -> u64 {
    unsafe { c::plq_levels_read(m, r, text.as_ptr(), text.len(), row.as_mut_ptr(), row.len()) }
}

pub fn levels_write(m: usize, r: usize, row: &[u8], text: &mut [u8]) -> u64 {
    unsafe { c::plq_levels_write(m, r, row.as_ptr(), row.len(), text.as_mut_ptr(), text.len()) }
}

/// What was seen of a call in the archive.
pub struct Observed {
    pub answer: u64,
    pub buffers: Vec<Vec<u8>>,
    /// Whether every input holds what it held, and nothing was written before a slice.
    pub others_kept: bool,
}

/// Guarded memory for the slices of one call after the other.
#[derive(Default)]
pub struct Archive {
    inputs: [Guarded; 2],
    buffers: [Guarded; 2],
}

impl Archive {
    /// Makes the call with every slice right before a guard page.
    pub fn run(&mut self, call: &Call) -> Observed {
        for (place, bytes) in self.inputs.iter_mut().zip(&call.inputs) {
            place.place(bytes);
        }
        for (place, bytes) in self.buffers.iter_mut().zip(&call.buffers) {
            place.place(bytes);
        }
        let answer = self.invoke(call.kind, &call.numbers);
        let buffers = self.buffers[..call.buffers.len()].iter();
        Observed {
            answer,
            buffers: buffers.map(|buffer| buffer.bytes().to_vec()).collect(),
            others_kept: self.others_kept(call),
        }
    }

    fn invoke(&mut self, kind: Kind, numbers: &[usize]) -> u64 {
        let [first, second] = &self.inputs;
        let (first, second) = (first.bytes(), second.bytes());
        let [buffer, other] = &mut self.buffers;
        let (buffer, other) = (buffer.bytes_mut(), other.bytes_mut());
        let code = |numbers: &[usize]| CodeRef {
            m: numbers[0],
            r: numbers[1],
            k: numbers[2],
            points: first,
        };
        match kind {
            Kind::Encode => encode(code(numbers), second, buffer),
            Kind::Decode => decode(code(numbers), second, buffer, other),
            Kind::Distance => distance(numbers[0], first, second),
            Kind::SlipWrite => slip_write(numbers[0], code(&numbers[1..]), second, buffer),
            Kind::SlipRead => slip_read(first, buffer, other),
            Kind::Line => line(first, buffer),
            Kind::RollFirst => roll_first(first),
            Kind::ToNew => to_new(first, buffer),
            Kind::ToOld => to_old(first, buffer),
            Kind::LevelsRead => levels_read(numbers[0], numbers[1], first, buffer),
            Kind::LevelsWrite => levels_write(numbers[0], numbers[1], first, buffer),
        }
    }

    fn others_kept(&self, call: &Call) -> bool {
        let inputs = self.inputs.iter().zip(&call.inputs);
        let inputs_kept = inputs.clone().all(|(place, bytes)| place.bytes() == bytes);
        let slices = self.inputs.iter().chain(&self.buffers);
        inputs_kept && slices.into_iter().all(Guarded::margin_kept)
    }
}
