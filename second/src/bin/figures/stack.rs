//! How much stack a call takes: it runs on a stack filled with a pattern, and what changed is counted.

use std::ffi::{c_int, c_void};
use std::ptr;

const STACK: usize = 256 * 1024;
const PATTERN: u8 = 0xC3;

/// `pthread_attr_t`, which has 56 bytes on this platform.
type Attributes = [u64; 7];

extern "C" {
    fn pthread_attr_init(attributes: *mut Attributes) -> c_int;
    fn pthread_attr_setstack(attributes: *mut Attributes, low: *mut c_void, size: usize) -> c_int;
    fn pthread_create(
        thread: *mut usize,
        attributes: *const Attributes,
        start: extern "C" fn(*mut c_void) -> *mut c_void,
        argument: *mut c_void,
    ) -> c_int;
    fn pthread_join(thread: usize, answer: *mut *mut c_void) -> c_int;
}

/// A stack's alignment.
#[repr(align(4096))]
struct Stack([u8; STACK]);

/// The bytes of stack that `call` takes beyond those of a thread that does nothing.
pub fn stack_use(call: &mut dyn FnMut()) -> usize {
    touched(call) - touched(&mut || ())
}

fn touched(call: &mut dyn FnMut()) -> usize {
    let mut stack = Box::new(Stack([PATTERN; STACK]));
    run_on(&mut stack, call);
    let untouched = stack.0.iter().take_while(|byte| **byte == PATTERN);
    STACK - untouched.count()
}

fn run_on(stack: &mut Stack, mut call: &mut dyn FnMut()) {
    let mut attributes: Attributes = [0; 7];
    let mut thread = 0;
    // SAFETY: the stack and the call outlive the thread, which is joined here; the stack is aligned and large enough.
    unsafe {
        assert_eq!(pthread_attr_init(&mut attributes), 0);
        let low = ptr::from_mut(stack).cast();
        assert_eq!(pthread_attr_setstack(&mut attributes, low, STACK), 0);
        let argument = ptr::from_mut(&mut call).cast();
        assert_eq!(pthread_create(&mut thread, &attributes, start, argument), 0);
        assert_eq!(pthread_join(thread, ptr::null_mut()), 0);
    }
}

extern "C" fn start(argument: *mut c_void) -> *mut c_void {
    // SAFETY: `run_on` passes the address of a call that lives until the thread is joined, and uses it nowhere else.
    let call = unsafe { &mut *argument.cast::<&mut dyn FnMut()>() };
    call();
    ptr::null_mut()
}
