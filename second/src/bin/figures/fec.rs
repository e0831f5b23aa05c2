//! libfec, the usual C library for the codes with r = 1, looked for when the program runs.

use crate::inputs::{Sample, Setting};
use std::ffi::{c_char, c_int, c_void, CStr};
use std::mem;

const RTLD_NOW: c_int = 2;
/// Under these names a system has it.
const NAMES: [&CStr; 3] = [c"libfec.so", c"libfec.so.0", c"libfec.so.3"];

/// x^8 + x^4 + x^3 + x^2 + 1.
const MODULUS: c_int = 285;
/// Symbols in a block that is not shortened.
const WHOLE_BLOCK: usize = 255;

extern "C" {
    fn dlopen(name: *const c_char, flags: c_int) -> *mut c_void;
    fn dlsym(library: *mut c_void, name: *const c_char) -> *mut c_void;
}

type Init = unsafe extern "C" fn(c_int, c_int, c_int, c_int, c_int, c_int) -> *mut c_void;
type Encode = unsafe extern "C" fn(*mut c_void, *mut u8, *mut u8);
type Decode = unsafe extern "C" fn(*mut c_void, *mut u8, *mut c_int, c_int) -> c_int;
type Free = unsafe extern "C" fn(*mut c_void);

/// The functions of the library.
#[derive(Clone, Copy)]
pub struct Library {
    init: Init,
    encode: Encode,
    decode: Decode,
    free: Free,
}

impl Library {
    /// The library, if it is installed.
    pub fn find() -> Option<Library> {
        // SAFETY: the names end in zero, and the library has no constructor that could do harm.
        let library = NAMES.iter().find_map(|name| unsafe {
            let library = dlopen(name.as_ptr(), RTLD_NOW);
            (!library.is_null()).then_some(library)
        })?;
        let symbol = |name: &CStr| {
            // SAFETY: `library` was opened above and is never closed.
            let symbol = unsafe { dlsym(library, name.as_ptr()) };
            (!symbol.is_null()).then_some(symbol)
        };
        // SAFETY: these are the types that the library's header declares for these functions.
        unsafe {
            Some(Library {
                init: mem::transmute::<*mut c_void, Init>(symbol(c"init_rs_char")?),
                encode: mem::transmute::<*mut c_void, Encode>(symbol(c"encode_rs_char")?),
                decode: mem::transmute::<*mut c_void, Decode>(symbol(c"decode_rs_char")?),
                free: mem::transmute::<*mut c_void, Free>(symbol(c"free_rs_char")?),
            })
        }
    }
}

/// A code of the library: n symbols, k of them the message, over the field of 256.
pub struct Fec {
    library: Library,
    code: *mut c_void,
    n: usize,
    k: usize,
}

impl Fec {
    pub fn new(library: Library, setting: Setting) -> Fec {
        let (n, k) = (setting.n, setting.k());
        let roots = (n - k) as c_int;
        let pad = (WHOLE_BLOCK - n) as c_int;
        // SAFETY: the numbers are within the library's limits: roots below 255, pad below 255 less the roots.
        let code = unsafe { (library.init)(8, MODULUS, 1, 1, roots, pad) };
        assert!(!code.is_null(), "libfec refuses n = {n}, k = {k}");
        Fec {
            library,
            code,
            n,
            k,
        }
    }

    pub fn encode(&self, message: &[u8], parity: &mut [u8]) {
        assert_eq!((message.len(), parity.len()), (self.k, self.n - self.k));
        // SAFETY: the lengths are those of the code. The library does not write to the message.
        unsafe {
            (self.library.encode)(self.code, message.as_ptr().cast_mut(), parity.as_mut_ptr());
        }
    }

    /// Mends the block in place and gives the number of symbols mended.
    pub fn decode(&self, block: &mut [u8]) -> c_int {
        assert_eq!(block.len(), self.n);
        // SAFETY: the block has the code's length, and no erasures are named.
        unsafe { (self.library.decode)(self.code, block.as_mut_ptr(), std::ptr::null_mut(), 0) }
    }

    /// The blocks of the samples' messages, each with its first `wrong` symbols changed.
    pub fn damaged_blocks(&self, samples: &[Sample], wrong: usize) -> Vec<Vec<u8>> {
        let block = |sample: &Sample| {
            let mut block = sample.message.clone();
            block.resize(self.n, 0);
            let (message, parity) = block.split_at_mut(self.k);
            self.encode(message, parity);
            let sent = block.clone();
            for symbol in &mut block[..wrong] {
                *symbol ^= 0x5B;
            }
            let damaged = block.clone();
            assert_eq!(self.decode(&mut block), wrong as c_int);
            assert_eq!(block, sent);
            damaged
        };
        samples.iter().map(block).collect()
    }
}

impl Drop for Fec {
    fn drop(&mut self) {
        // SAFETY: the code was made by the library and is given back once.
        unsafe { (self.library.free)(self.code) }
    }
}
