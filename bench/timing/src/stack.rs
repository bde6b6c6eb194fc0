//! How much stack a call uses, the caller's few bytes included.

use std::ffi::c_void;

extern "C" {
    fn stack_used(run: extern "C" fn(*mut c_void), with: *mut c_void) -> usize;
}

struct Call<'a> {
    judge: fn(&[u8]) -> bool,
    input: &'a [u8],
}

extern "C" fn run(with: *mut c_void) {
    // SAFETY: `used` below hands in a call that lives until it is over.
    let call = unsafe { &*(with as *const Call) };
    assert!((call.judge)(call.input));
}

pub fn used(judge: fn(&[u8]) -> bool, input: &[u8]) -> usize {
    let mut call = Call { judge, input };
    // SAFETY: as above.
    unsafe { stack_used(run, &mut call as *mut Call as *mut c_void) }
}
