//! Passes over all samples of a setting, in the archive, in the plain implementation and in libfec.

use crate::fec::Fec;
use crate::inputs::{Sample, Setting};
use crate::measure::{in_turns, Figure};
use second::archive;
use second::plain;
use std::hint::black_box;

/// Buffers for one code size, made before the clock starts.
struct Buffers {
    row: Vec<u8>,
    message: Vec<u8>,
    depths: Vec<u8>,
}

impl Buffers {
    fn new(setting: Setting) -> Buffers {
        Buffers {
            row: vec![0; setting.n],
            message: vec![0; setting.k()],
            depths: vec![0; setting.n / setting.r],
        }
    }

    fn archive_encode(&mut self, sample: &Sample) -> u64 {
        archive::encode((&sample.code).into(), &sample.message, &mut self.row)
    }

    fn archive_decode(&mut self, sample: &Sample) -> u64 {
        let Buffers {
            message, depths, ..
        } = self;
        archive::decode((&sample.code).into(), &sample.row, message, depths)
    }

    fn plain_encode(&mut self, sample: &Sample) -> Result<usize, plain::Refused> {
        let Sample { code, message, .. } = sample;
        plain::encode(code.m, code.r, code.k, &code.points, message, &mut self.row)
    }

    fn plain_decode(&mut self, sample: &Sample) -> Result<usize, plain::Refused> {
        let Sample { code, row, .. } = sample;
        let Buffers {
            message, depths, ..
        } = self;
        plain::decode(code.m, code.r, code.k, &code.points, row, message, depths)
    }
}

/// The archive's decoder against the plain one.
pub fn decode_figure(setting: Setting, samples: &[Sample]) -> Figure {
    let (mut ours, mut theirs) = (Buffers::new(setting), Buffers::new(setting));
    for sample in samples {
        let answer = ours.archive_decode(sample);
        let total = theirs
            .plain_decode(sample)
            .expect("a message within the radius");
        assert_eq!(answer, (total as u64) << 8);
        assert_eq!(
            (&ours.message, &theirs.message),
            (&sample.message, &sample.message)
        );
        assert_eq!(ours.depths, theirs.depths);
    }
    in_turns(
        samples.len(),
        &mut || for_each(samples, |sample| ours.archive_decode(sample)),
        &mut || for_each(samples, |sample| theirs.plain_decode(sample)),
    )
}

/// The archive's encoder against the plain one.
pub fn encode_figure(setting: Setting, samples: &[Sample]) -> Figure {
    let (mut ours, mut theirs) = (Buffers::new(setting), Buffers::new(setting));
    for sample in samples {
        assert_eq!(ours.archive_encode(sample), 0);
        assert_eq!(theirs.plain_encode(sample), Ok(0));
        assert_eq!(ours.row, theirs.row);
    }
    in_turns(
        samples.len(),
        &mut || for_each(samples, |sample| ours.archive_encode(sample)),
        &mut || for_each(samples, |sample| theirs.plain_encode(sample)),
    )
}

/// The archive's decoder against libfec's, each on its own rows with the same number of wrong symbols.
pub fn fec_decode_figure(setting: Setting, samples: &[Sample], fec: &Fec, wrong: usize) -> Figure {
    let mut ours = Buffers::new(setting);
    let blocks = fec.damaged_blocks(samples, wrong);
    let mut block = vec![0; setting.n];
    in_turns(
        samples.len(),
        &mut || for_each(samples, |sample| ours.archive_decode(sample)),
        // libfec mends a block in place, so each call needs a fresh copy.
        &mut || {
            for damaged in &blocks {
                block.copy_from_slice(damaged);
                black_box(fec.decode(black_box(&mut block)));
            }
        },
    )
}

/// The archive's encoder against libfec's.
pub fn fec_encode_figure(setting: Setting, samples: &[Sample], fec: &Fec) -> Figure {
    let mut ours = Buffers::new(setting);
    let mut parity = vec![0; setting.n - setting.k()];
    in_turns(
        samples.len(),
        &mut || for_each(samples, |sample| ours.archive_encode(sample)),
        &mut || {
            for sample in samples {
                fec.encode(black_box(&sample.message), black_box(&mut parity));
            }
        },
    )
}

/// Makes the call for each sample; what comes in and goes out is hidden from the optimiser.
fn for_each<T>(samples: &[Sample], mut call: impl FnMut(&Sample) -> T) {
    for sample in samples {
        black_box(call(black_box(sample)));
    }
}
