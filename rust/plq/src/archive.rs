//! The functions of the archive, as include/plq.h declares them.

pub mod c {
    extern "C" {
        pub fn plq_encode(
            m: usize,
            r: usize,
            k: usize,
            points: *const u8,
            points_len: usize,
            message: *const u8,
            message_len: usize,
            row: *mut u8,
            row_len: usize,
        ) -> u64;
        pub fn plq_decode(
            m: usize,
            r: usize,
            k: usize,
            points: *const u8,
            points_len: usize,
            row: *const u8,
            row_len: usize,
            message: *mut u8,
            message_len: usize,
            depths: *mut u8,
            depths_len: usize,
        ) -> u64;
        pub fn plq_distance(
            r: usize,
            a: *const u8,
            a_len: usize,
            b: *const u8,
            b_len: usize,
        ) -> u64;
        pub fn plq_slip_write(
            edition: usize,
            m: usize,
            r: usize,
            k: usize,
            points: *const u8,
            points_len: usize,
            row: *const u8,
            row_len: usize,
            bytes: *mut u8,
            bytes_len: usize,
        ) -> u64;
        pub fn plq_slip_read(
            bytes: *const u8,
            bytes_len: usize,
            points: *mut u8,
            points_len: usize,
            row: *mut u8,
            row_len: usize,
        ) -> u64;
        pub fn plq_line(slip: *const u8, slip_len: usize, text: *mut u8, text_len: usize) -> u64;
        pub fn plq_roll_first(roll: *const u8, roll_len: usize) -> u64;
        pub fn plq_to_new(
            slip: *const u8,
            slip_len: usize,
            bytes: *mut u8,
            bytes_len: usize,
        ) -> u64;
        pub fn plq_to_old(
            slip: *const u8,
            slip_len: usize,
            bytes: *mut u8,
            bytes_len: usize,
        ) -> u64;
        pub fn plq_levels_read(
            m: usize,
            r: usize,
            text: *const u8,
            text_len: usize,
            row: *mut u8,
            row_len: usize,
        ) -> u64;
        pub fn plq_levels_write(
            m: usize,
            r: usize,
            row: *const u8,
            row_len: usize,
            text: *mut u8,
            text_len: usize,
        ) -> u64;
    }
}
