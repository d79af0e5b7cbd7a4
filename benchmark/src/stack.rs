//! The stack that a job takes. A thread is started on memory of our own,
//! every byte of which holds a known value; the lowest byte that has another
//! value afterwards is the depth reached. This is done with two values, as a
//! byte written may equal one of them.

use std::ffi::c_void;
use std::hint::black_box;

use crate::Implementation;
use crate::cases::Case;

const STACK: usize = 1 << 20;
const PAGE: usize = 4_096;

/// Large enough for the platform's `pthread_attr_t`, which has 56 bytes on
/// x86-64 Linux.
#[repr(C, align(16))]
struct Attributes([u8; 128]);

unsafe extern "C" {
    fn pthread_attr_init(attributes: *mut Attributes) -> i32;
    fn pthread_attr_setstack(attributes: *mut Attributes, stack: *mut c_void, size: usize) -> i32;
    fn pthread_attr_destroy(attributes: *mut Attributes) -> i32;
    fn pthread_create(
        thread: *mut usize,
        attributes: *const Attributes,
        start: extern "C" fn(*mut c_void) -> *mut c_void,
        given: *mut c_void,
    ) -> i32;
    fn pthread_join(thread: usize, result: *mut *mut c_void) -> i32;
}

/// What the thread is given, and the address of a byte in its own frame.
struct Work<'a, G, L> {
    implementation: Implementation<G, L>,
    given: &'a [G],
    lent: &'a mut [L],
    frame: usize,
}

extern "C" fn work<G, L>(given: *mut c_void) -> *mut c_void {
    // The starter lends it until it has joined this thread.
    let work = unsafe { &mut *given.cast::<Work<G, L>>() };
    let here = 0u8;
    work.frame = black_box(&raw const here).addr();
    black_box((work.implementation)(work.given, work.lent));
    std::ptr::null_mut()
}

/// Bytes of stack from the frame of the caller down to the lowest byte that
/// the case writes.
pub fn depth<G, L: Copy + From<u8>>(implementation: Implementation<G, L>, case: &Case<G>) -> usize {
    let depths = [0x5a, 0xa5].map(|value| depth_over(value, implementation, case));
    depths[0].max(depths[1])
}

fn depth_over<G, L: Copy + From<u8>>(
    value: u8,
    implementation: Implementation<G, L>,
    case: &Case<G>,
) -> usize {
    let mut memory = vec![value; STACK + PAGE];
    let skipped = memory.as_ptr().align_offset(PAGE);
    let stack = &mut memory[skipped..skipped + STACK];
    let mut work = Work {
        implementation,
        given: &case.given,
        lent: &mut vec![L::from(0); case.lent],
        frame: 0,
    };
    run_on(stack, &mut work);
    let frame = work.frame - stack.as_ptr().addr();
    let lowest = stack.iter().position(|byte| *byte != value);
    let lowest = lowest.expect("the thread writes its frame");
    assert!(lowest > 0, "the stack is too small to tell");
    frame - lowest
}

/// Runs the work on the given stack, to its end.
fn run_on<G, L>(stack: &mut [u8], given: &mut Work<G, L>) {
    let mut attributes = Attributes([0; 128]);
    let mut thread = 0;
    let mut result = std::ptr::null_mut();
    // Stack and work outlive the thread, which is joined here.
    unsafe {
        assert_eq!(pthread_attr_init(&mut attributes), 0);
        let memory = stack.as_mut_ptr().cast();
        assert_eq!(
            pthread_attr_setstack(&mut attributes, memory, stack.len()),
            0
        );
        let given = (&raw mut *given).cast();
        assert_eq!(
            pthread_create(&mut thread, &attributes, work::<G, L>, given),
            0
        );
        assert_eq!(pthread_join(thread, &mut result), 0);
        pthread_attr_destroy(&mut attributes);
    }
}
