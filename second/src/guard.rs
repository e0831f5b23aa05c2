//! Memory in which a buffer ends exactly where a page begins that must not be touched.
//!
//! A read or write behind the buffer stops the program at once. The bytes before the buffer hold a pattern, so that a
//! write there is seen afterwards; before those stands another page that must not be touched.

use std::ffi::c_void;
use std::ptr;
use std::slice;

const PAGE: usize = 4096;
/// The longest buffer that can be placed: a roll of 40 slips has room.
pub const ROOM: usize = 6 * PAGE;
/// What the bytes before the buffer hold, as many as there are but no more than a page.
static PATTERN: [u8; PAGE] = [0xA5; PAGE];

const PROT_NONE: i32 = 0;
const PROT_READ_WRITE: i32 = 3;
const MAP_PRIVATE_ANONYMOUS: i32 = 0x22;

extern "C" {
    fn mmap(
        address: *mut c_void,
        length: usize,
        protection: i32,
        flags: i32,
        file: i32,
        offset: i64,
    ) -> *mut c_void;
    fn mprotect(address: *mut c_void, length: usize, protection: i32) -> i32;
    fn munmap(address: *mut c_void, length: usize) -> i32;
}

/// Pages to read and write between two that must not be touched, with a buffer at their end.
pub struct Guarded {
    first: *mut u8,
    length: usize,
}

impl Default for Guarded {
    fn default() -> Guarded {
        Guarded::new()
    }
}

impl Guarded {
    pub fn new() -> Guarded {
        // SAFETY: a fresh mapping is asked for; its middle pages, which lie within it, are then opened.
        let first = unsafe {
            let pages = mmap(
                ptr::null_mut(),
                ROOM + 2 * PAGE,
                PROT_NONE,
                MAP_PRIVATE_ANONYMOUS,
                -1,
                0,
            );
            assert_ne!(pages as isize, -1, "no memory for a guarded buffer");
            let first = pages.cast::<u8>();
            let opened = mprotect(first.add(PAGE).cast(), ROOM, PROT_READ_WRITE);
            assert_eq!(opened, 0, "the pages between the guards cannot be opened");
            first
        };
        let mut guarded = Guarded { first, length: 0 };
        guarded.place(&[]);
        guarded
    }

    /// Puts `bytes` at the end of the pages and the pattern before them.
    pub fn place(&mut self, bytes: &[u8]) {
        self.length = bytes.len();
        let margin = self.margin();
        let start = ROOM - bytes.len();
        let pages = self.pages_mut();
        pages[start - margin..start].copy_from_slice(&PATTERN[..margin]);
        pages[start..].copy_from_slice(bytes);
    }

    /// The buffer that was placed last.
    pub fn bytes(&self) -> &[u8] {
        &self.pages()[ROOM - self.length..]
    }

    pub fn bytes_mut(&mut self) -> &mut [u8] {
        let start = ROOM - self.length;
        &mut self.pages_mut()[start..]
    }

    /// Whether nothing was written before the buffer.
    pub fn margin_kept(&self) -> bool {
        let margin = self.margin();
        let start = ROOM - self.length;
        self.pages()[start - margin..start] == PATTERN[..margin]
    }

    fn margin(&self) -> usize {
        PAGE.min(ROOM - self.length)
    }

    fn pages(&self) -> &[u8] {
        // SAFETY: the middle pages of the mapping are open as long as `self` lives.
        unsafe { slice::from_raw_parts(self.first.add(PAGE), ROOM) }
    }

    fn pages_mut(&mut self) -> &mut [u8] {
        // SAFETY: as in `pages`, and `self` is borrowed alone.
        unsafe { slice::from_raw_parts_mut(self.first.add(PAGE), ROOM) }
    }
}

impl Drop for Guarded {
    fn drop(&mut self) {
        // SAFETY: the mapping was made in `new` with this length, and nobody holds a part of it any more.
        unsafe {
            munmap(self.first.cast(), ROOM + 2 * PAGE);
        }
    }
}

#[cfg(test)]
mod tests {
    use super::*;

    #[test]
    fn the_buffer_ends_where_a_page_ends() {
        let mut guarded = Guarded::new();
        guarded.place(&[1, 2, 3]);
        let end = guarded.bytes().as_ptr_range().end as usize;
        assert_eq!(end % PAGE, 0);
        assert_eq!(guarded.bytes(), [1, 2, 3]);
        guarded.place(&[]);
        assert!(guarded.bytes().is_empty());
        assert_eq!(guarded.bytes().as_ptr() as usize, end);
    }

    #[test]
    fn a_write_before_the_buffer_is_seen() {
        let mut guarded = Guarded::new();
        guarded.place(&[1, 2, 3]);
        assert!(guarded.margin_kept());
        guarded.pages_mut()[ROOM - 4] ^= 1;
        assert!(!guarded.margin_kept());
    }
}
