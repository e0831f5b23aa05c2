//! The second program: the codes, rows and slips implemented once more, and what compares the archive with it.
//!
//! - [`reference`](mod@reference) is written from the description of the codes alone, for trust and not for speed.
//! - [`plain`] is the elimination decoder and the encoder that the figures are measured against.
//! - [`call`], [`frame`], [`generate`], [`worked`], [`editions`], [`turns`] and [`bench`] make calls with all their inputs, [`table`] a table of slips.
//! - [`guard`] and `archive` run a call in the archive on buffers that end at a guard page.

pub mod bench;
pub mod call;
pub mod editions;
pub mod frame;
pub mod generate;
pub mod guard;
pub mod plain;
pub mod random;
pub mod reference;
pub mod table;
pub mod turns;
pub mod worked;

#[cfg(archive)]
pub mod archive;

#[cfg(test)]
mod tests {
    use std::hint::black_box;

    /// So that no product, sum or index here goes wrong unseen, in the gate too.
    #[test]
    #[should_panic(expected = "overflow")]
    fn a_sum_that_wraps_stops_the_program() {
        black_box(black_box(u8::MAX) + black_box(1));
    }
}
