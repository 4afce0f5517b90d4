//! How much stack a call uses: it runs on a stack that was painted beforehand.

use std::ffi::c_void;
use std::os::raw::c_int;

/// The bytes of the painted stack.
const STACK: usize = 16 << 20;
/// Stacks begin and end at multiples of this.
const PAGE: usize = 4_096;
const PAINT: u8 = 0xc3;

/// Room for a `pthread_attr_t`, which is smaller.
#[repr(C, align(16))]
struct Attributes([u8; 256]);

extern "C" {
    fn pthread_attr_init(attributes: *mut Attributes) -> c_int;
    fn pthread_attr_setstack(attributes: *mut Attributes, low: *mut c_void, size: usize) -> c_int;
    fn pthread_attr_destroy(attributes: *mut Attributes) -> c_int;
    fn pthread_create(
        thread: *mut usize,
        attributes: *const Attributes,
        start: extern "C" fn(*mut c_void) -> *mut c_void,
        argument: *mut c_void,
    ) -> c_int;
    fn pthread_join(thread: usize, result: *mut *mut c_void) -> c_int;
}

/// A call, as a thread takes it.
struct Work<'a>(&'a mut dyn FnMut());

/// The bytes of stack that a call uses beyond those of its thread.
pub fn used(call: &mut dyn FnMut()) -> usize {
    let of_thread = on_painted_stack(&mut || {});
    on_painted_stack(call) - of_thread
}

/// The bytes of stack that a thread with this call uses.
fn on_painted_stack(call: &mut dyn FnMut()) -> usize {
    let mut memory = vec![PAINT; STACK + PAGE];
    let start = memory.as_ptr().align_offset(PAGE);
    let stack = &mut memory[start..start + STACK];
    let mut work = Work(call);
    // Sound: `stack` and `work` outlive the thread, which is joined before this
    // function goes on, and nothing else touches them meanwhile.
    unsafe { run_on(stack, &mut work) };
    let untouched = stack.iter().position(|&byte| byte != PAINT);
    STACK - untouched.unwrap_or(STACK)
}

/// Runs a call in a thread of its own on this stack.
unsafe fn run_on(stack: &mut [u8], work: &mut Work<'_>) {
    let mut attributes = Attributes([0; 256]);
    let mut thread = 0;
    let low = stack.as_mut_ptr().cast();
    let argument: *mut Work<'_> = work;
    done(pthread_attr_init(&mut attributes));
    done(pthread_attr_setstack(&mut attributes, low, stack.len()));
    done(pthread_create(
        &mut thread,
        &attributes,
        start,
        argument.cast(),
    ));
    done(pthread_join(thread, std::ptr::null_mut()));
    done(pthread_attr_destroy(&mut attributes));
}

extern "C" fn start(argument: *mut c_void) -> *mut c_void {
    // Sound: `run_on` hands over a `Work` and waits for this thread.
    let work = unsafe { &mut *argument.cast::<Work<'_>>() };
    (work.0)();
    std::ptr::null_mut()
}

fn done(result: c_int) {
    assert_eq!(result, 0, "a thread on a painted stack");
}
