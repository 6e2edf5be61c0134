//! How much stack a call uses: it runs in a thread whose stack is painted before and looked at afterwards.

use std::ffi::{c_int, c_void};

/// Bytes of the painted stack.
pub const SIZE: usize = 1 << 21;

/// Painted in every byte.
const PAINT: u8 = 0xc5;

/// A page, to whose borders a stack must keep.
const PAGE: usize = 4096;

/// Room for a `pthread_attr_t`, which glibc has in 56 bytes.
#[repr(C, align(16))]
struct Attributes([u8; 128]);

extern "C" {
    fn pthread_attr_init(attributes: *mut Attributes) -> c_int;
    fn pthread_attr_setstack(attributes: *mut Attributes, stack: *mut c_void, size: usize)
        -> c_int;
    fn pthread_attr_destroy(attributes: *mut Attributes) -> c_int;
    fn pthread_create(
        thread: *mut usize,
        attributes: *const Attributes,
        start: extern "C" fn(*mut c_void) -> *mut c_void,
        argument: *mut c_void,
    ) -> c_int;
    fn pthread_join(thread: usize, result: *mut *mut c_void) -> c_int;
}

/// What a thread is to do.
type Work<'w> = &'w mut dyn FnMut();

extern "C" fn start(argument: *mut c_void) -> *mut c_void {
    // SAFETY: `run` hands over a pointer to its work, and waits for the thread's end.
    let work = unsafe { &mut *argument.cast::<Work>() };
    work();
    std::ptr::null_mut()
}

/// Runs the work in a thread on this stack, to its end.
fn run(stack: &mut [u8], mut work: Work) {
    let mut attributes = Attributes([0; 128]);
    let mut thread = 0;
    let argument: *mut Work = &mut work;
    // SAFETY: the attributes have room, the stack is a slice that nothing else uses until the thread has ended, and
    // the work outlives the thread.
    let answers = unsafe {
        [
            pthread_attr_init(&mut attributes),
            pthread_attr_setstack(&mut attributes, stack.as_mut_ptr().cast(), stack.len()),
            pthread_create(&mut thread, &attributes, start, argument.cast()),
            pthread_join(thread, std::ptr::null_mut()),
            pthread_attr_destroy(&mut attributes),
        ]
    };
    assert_eq!(answers, [0; 5], "a thread");
}

/// Bytes from the lowest one that was written to the top.
fn touched(stack: &mut [u8], work: Work) -> usize {
    stack.fill(PAINT);
    run(stack, work);
    let clean = stack.iter().take_while(|&&byte| byte == PAINT).count();
    assert!(clean > 0, "the whole stack was used");
    stack.len() - clean
}

/// Bytes of stack that a call uses, beyond those of a thread that does nothing.
pub fn used(mut call: impl FnMut()) -> usize {
    let mut bytes = vec![0; SIZE + PAGE];
    let skipped = bytes.as_ptr().align_offset(PAGE);
    let stack = &mut bytes[skipped..skipped + SIZE];
    let idle = touched(stack, &mut || {});
    touched(stack, &mut call).saturating_sub(idle)
}
