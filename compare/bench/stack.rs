//! How much stack a call uses: it is made on a thread whose stack we paint before and look at afterwards.

use std::os::raw::{c_int, c_void};

const SIZE: usize = 16 << 20;
const PAINT: u8 = 0xA5;

/// At least as large as glibc's `pthread_attr_t` on the machines that the archives are made for.
#[repr(C, align(16))]
struct Attributes([u8; 64]);

extern "C" {
    fn pthread_attr_init(attributes: *mut Attributes) -> c_int;
    fn pthread_attr_setstack(attributes: *mut Attributes, start: *mut c_void, size: usize) -> c_int;
    fn pthread_create(
        thread: *mut usize,
        attributes: *const Attributes,
        start: extern "C" fn(*mut c_void) -> *mut c_void,
        argument: *mut c_void,
    ) -> c_int;
    fn pthread_join(thread: usize, result: *mut *mut c_void) -> c_int;
}

extern "C" fn enter(argument: *mut c_void) -> *mut c_void {
    let work = unsafe { &mut *(argument as *mut &mut dyn FnMut()) };
    work();
    std::ptr::null_mut()
}

/// From the top of the thread's stack to the lowest byte that is no longer painted.
fn touched(work: &mut dyn FnMut()) -> usize {
    let layout = std::alloc::Layout::from_size_align(SIZE, 4096).unwrap();
    let start = unsafe { std::alloc::alloc(layout) };
    assert!(!start.is_null(), "no memory for a stack");
    let mut argument = work;
    unsafe {
        start.write_bytes(PAINT, SIZE);
        let mut attributes = Attributes([0; 64]);
        let mut thread = 0usize;
        let mut made = pthread_attr_init(&mut attributes);
        made |= pthread_attr_setstack(&mut attributes, start as *mut c_void, SIZE);
        made |= pthread_create(&mut thread, &attributes, enter, &mut argument as *mut _ as *mut c_void);
        assert_eq!(made, 0, "no thread with a stack of its own");
        pthread_join(thread, std::ptr::null_mut());
        let untouched = std::slice::from_raw_parts(start, SIZE).iter().take_while(|&&b| b == PAINT).count();
        std::alloc::dealloc(start, layout);
        SIZE - untouched
    }
}

/// The bytes that a call uses beyond what a thread that does nothing uses.
pub fn peak(mut work: impl FnMut()) -> usize {
    let idle = touched(&mut || {});
    touched(&mut work).saturating_sub(idle)
}
