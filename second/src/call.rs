//! A call with all its inputs, and its outcome: the answer and the final bytes of every buffer.

/// Which call is made; the number is the one that frames use.
#[derive(Clone, Copy, Debug, PartialEq, Eq, PartialOrd, Ord)]
pub enum Kind {
    Encode = 1,
    Decode = 2,
    Distance = 3,
    SlipWrite = 4,
    SlipRead = 5,
    Line = 6,
    RollFirst = 7,
    ToNew = 8,
    ToOld = 9,
    LevelsRead = 10,
    LevelsWrite = 11,
}

/// How many numbers, input slices and buffers a call takes, in this order.
#[derive(Clone, Copy, Debug, PartialEq, Eq)]
pub struct Shape {
    pub numbers: usize,
    pub inputs: usize,
    pub buffers: usize,
}

impl Kind {
    pub const ALL: [Kind; 11] = [
        Kind::Encode,
        Kind::Decode,
        Kind::Distance,
        Kind::SlipWrite,
        Kind::SlipRead,
        Kind::Line,
        Kind::RollFirst,
        Kind::ToNew,
        Kind::ToOld,
        Kind::LevelsRead,
        Kind::LevelsWrite,
    ];

    pub fn from_byte(byte: u8) -> Option<Kind> {
        Kind::ALL.into_iter().find(|kind| *kind as u8 == byte)
    }

    pub fn name(self) -> &'static str {
        self.about().0
    }

    pub fn shape(self) -> Shape {
        let (numbers, inputs, buffers) = self.about().1;
        Shape {
            numbers,
            inputs,
            buffers,
        }
    }

    /// The edition of the slips that the call turns into the other one, if it does so.
    pub fn turns(self) -> Option<usize> {
        match self {
            Kind::ToNew => Some(1),
            Kind::ToOld => Some(2),
            _ => None,
        }
    }

    /// The numbers that the call can answer with.
    pub fn answers(self) -> &'static [u8] {
        self.about().2
    }

    /// The call's name, its shape and its answers: one row for each call.
    fn about(self) -> (&'static str, (usize, usize, usize), &'static [u8]) {
        match self {
            Kind::Encode => ("encode", (3, 2, 1), &[0, 1, 2, 3, 4, 5, 6, 7, 8]),
            Kind::Decode => ("decode", (3, 2, 2), &[0, 1, 2, 3, 4, 5, 6, 7, 8, 9]),
            Kind::Distance => ("distance", (1, 2, 0), &[0, 2, 7]),
            Kind::SlipWrite => ("slip_write", (4, 2, 1), &[0, 1, 2, 3, 4, 5, 6, 7, 8, 11]),
            Kind::SlipRead => ("slip_read", (0, 1, 2), &[0, 1, 3, 4, 6, 7, 10, 11, 12, 13]),
            Kind::Line => ("line", (0, 1, 1), &[0, 7]),
            Kind::RollFirst => ("roll_first", (0, 1, 0), &[0, 1, 3, 4, 10, 11]),
            Kind::ToNew => ("to_new", (0, 1, 1), &[0, 1, 3, 4, 6, 7, 10, 11, 12, 13]),
            Kind::ToOld => ("to_old", (0, 1, 1), &[0, 1, 3, 4, 6, 7, 10, 11, 12, 13, 15]),
            Kind::LevelsRead => ("levels_read", (2, 1, 1), &[0, 1, 2, 7, 17, 18]),
            Kind::LevelsWrite => ("levels_write", (2, 1, 1), &[0, 1, 2, 7, 8]),
        }
    }
}

/// One call: numbers (m, r, k, before them the edition of a slip; or m and r; or r alone), input slices and buffers with their first contents.
#[derive(Clone, Debug, PartialEq, Eq)]
pub struct Call {
    pub kind: Kind,
    pub numbers: Vec<usize>,
    pub inputs: Vec<Vec<u8>>,
    pub buffers: Vec<Vec<u8>>,
}

/// A code as a caller gives it, checked by nobody.
#[derive(Clone, Debug, PartialEq, Eq)]
pub struct RawCode {
    pub m: usize,
    pub r: usize,
    pub k: usize,
    pub points: Vec<u8>,
}

impl Call {
    pub fn encode(code: RawCode, message: Vec<u8>, row: Vec<u8>) -> Call {
        Call::with_code(Kind::Encode, code, message, vec![row])
    }

    pub fn decode(code: RawCode, row: Vec<u8>, message: Vec<u8>, depths: Vec<u8>) -> Call {
        Call::with_code(Kind::Decode, code, row, vec![message, depths])
    }

    pub fn distance(r: usize, a: Vec<u8>, b: Vec<u8>) -> Call {
        Call {
            kind: Kind::Distance,
            numbers: vec![r],
            inputs: vec![a, b],
            buffers: vec![],
        }
    }

    pub fn slip_write(edition: usize, code: RawCode, row: Vec<u8>, bytes: Vec<u8>) -> Call {
        let mut call = Call::with_code(Kind::SlipWrite, code, row, vec![bytes]);
        call.numbers.insert(0, edition);
        call
    }

    pub fn slip_read(bytes: Vec<u8>, points: Vec<u8>, row: Vec<u8>) -> Call {
        Call::with_slip(Kind::SlipRead, bytes, vec![points, row])
    }

    pub fn line(slip: Vec<u8>, text: Vec<u8>) -> Call {
        Call::with_slip(Kind::Line, slip, vec![text])
    }

    pub fn roll_first(roll: Vec<u8>) -> Call {
        Call::with_slip(Kind::RollFirst, roll, vec![])
    }

    pub fn to_new(slip: Vec<u8>, bytes: Vec<u8>) -> Call {
        Call::with_slip(Kind::ToNew, slip, vec![bytes])
    }

    pub fn to_old(slip: Vec<u8>, bytes: Vec<u8>) -> Call {
        Call::with_slip(Kind::ToOld, slip, vec![bytes])
    }

    /// The call that turns a slip of this edition.
    pub fn turn(from: usize, slip: Vec<u8>, bytes: Vec<u8>) -> Call {
        match from {
            1 => Call::to_new(slip, bytes),
            2 => Call::to_old(slip, bytes),
            _ => panic!("no call turns slips of edition {from}"),
        }
    }

    pub fn levels_read(m: usize, r: usize, text: Vec<u8>, row: Vec<u8>) -> Call {
        Call::with_levels(Kind::LevelsRead, m, r, text, row)
    }

    pub fn levels_write(m: usize, r: usize, row: Vec<u8>, text: Vec<u8>) -> Call {
        Call::with_levels(Kind::LevelsWrite, m, r, row, text)
    }

    /// m, r and k of a call that takes a code: its last numbers.
    pub fn code_numbers(&self) -> [usize; 3] {
        *self.numbers.last_chunk().expect("a call that takes a code")
    }

    pub fn set_code_numbers(&mut self, numbers: [usize; 3]) {
        let last = self.numbers.last_chunk_mut();
        *last.expect("a call that takes a code") = numbers;
    }

    /// The code of a call that takes one, and its edition: 0 where it takes none.
    pub fn header(&self) -> Header {
        let [m, r, k] = self.code_numbers();
        let edition = match self.kind {
            Kind::SlipWrite => self.numbers[0],
            _ => 0,
        };
        Header {
            edition,
            m,
            r,
            count: self.inputs[0].len(),
            k,
        }
    }

    fn with_code(kind: Kind, code: RawCode, symbols: Vec<u8>, buffers: Vec<Vec<u8>>) -> Call {
        Call {
            kind,
            numbers: vec![code.m, code.r, code.k],
            inputs: vec![code.points, symbols],
            buffers,
        }
    }

    fn with_levels(kind: Kind, m: usize, r: usize, input: Vec<u8>, buffer: Vec<u8>) -> Call {
        Call {
            kind,
            numbers: vec![m, r],
            inputs: vec![input],
            buffers: vec![buffer],
        }
    }

    fn with_slip(kind: Kind, slip: Vec<u8>, buffers: Vec<Vec<u8>>) -> Call {
        Call {
            kind,
            numbers: vec![],
            inputs: vec![slip],
            buffers,
        }
    }
}

/// An edition and a code in numbers. A done slip reader answers them; they are all zero for every other answer.
#[derive(Clone, Copy, Debug, Default, PartialEq, Eq)]
pub struct Header {
    pub edition: usize,
    pub m: usize,
    pub r: usize,
    pub count: usize,
    pub k: usize,
}

#[derive(Clone, Copy, Debug, Default, PartialEq, Eq)]
pub struct Answer {
    pub number: u8,
    pub detail: usize,
    pub header: Header,
}

impl Answer {
    /// An answer with no header in it.
    pub fn plain(number: u8, detail: usize) -> Answer {
        Answer {
            number,
            detail,
            header: Header::default(),
        }
    }

    /// The one word that the C function for this call returns.
    pub fn packed(self, kind: Kind) -> u64 {
        let number = u64::from(self.number);
        let detail = self.detail as u64;
        if kind != Kind::SlipRead {
            // The number of a line loses what is above its low 56 bits; no other detail has so many.
            return number | detail << 8;
        }
        let Header {
            edition,
            m,
            r,
            count,
            k,
        } = self.header;
        number
            | (m as u64) << 8
            | (r as u64) << 16
            | (count as u64) << 24
            | (k as u64) << 32
            | detail << 40
            | (edition as u64) << 48
    }
}

/// The answer of a call and the final bytes of its buffers.
#[derive(Clone, Debug, PartialEq, Eq)]
pub struct Outcome {
    pub answer: Answer,
    pub buffers: Vec<Vec<u8>>,
}

impl Outcome {
    /// An outcome with no header in it.
    pub fn plain(number: u8, detail: usize, buffers: Vec<Vec<u8>>) -> Outcome {
        let answer = Answer::plain(number, detail);
        Outcome { answer, buffers }
    }

    /// The outcome as the file of expected answers has it, without the newline.
    pub fn text(&self, kind: Kind) -> String {
        let Answer {
            number,
            detail,
            header,
        } = self.answer;
        let mut fields = vec![number.to_string(), detail.to_string()];
        if kind == Kind::SlipRead {
            let Header {
                edition,
                m,
                r,
                count,
                k,
            } = header;
            fields.extend([edition, m, r, count, k].map(|number| number.to_string()));
        }
        fields.extend(self.buffers.iter().map(|bytes| hex(bytes)));
        fields.join(" ")
    }
}

/// What a fresh buffer holds, so that one that was not written is seen.
pub const BEFORE: u8 = 0xEE;

/// A buffer for a call whose outcome is known beforehand.
pub fn fresh(length: usize) -> Vec<u8> {
    vec![BEFORE; length]
}

/// Two lower-case hexadecimal digits for each byte, or `-` for no bytes.
pub fn hex(bytes: &[u8]) -> String {
    if bytes.is_empty() {
        return "-".to_string();
    }
    bytes.iter().map(|byte| format!("{byte:02x}")).collect()
}
