//! What is removed where a signal ends the tool: a file that is not whole. Besides the library's calls the only unsafe lines.
use std::ffi::CString;
use std::os::raw::{c_char, c_int};
use std::os::unix::ffi::OsStrExt;
use std::path::Path;
use std::ptr::null_mut;
use std::sync::atomic::{AtomicPtr, Ordering};

/// The signals that end a command by rule: hangup, interrupt, termination.
const ENDING: [c_int; 3] = [1, 2, 15];
/// What signal() takes and gives for a signal that ends, and for one that is ignored.
const DEFAULT: usize = 0;
const IGNORED: usize = 1;

/// The name of the file, as the system takes it.
static PART: AtomicPtr<c_char> = AtomicPtr::new(null_mut());

extern "C" {
    fn signal(number: c_int, handler: usize) -> usize;
    fn raise(number: c_int) -> c_int;
    fn unlink(path: *const c_char) -> c_int;
}

/// Removes the file, and ends as the signal says. It calls nothing but what may be called from here.
extern "C" fn end(number: c_int) {
    let part = PART.swap(null_mut(), Ordering::SeqCst);
    unsafe {
        if !part.is_null() {
            unlink(part);
        }
        signal(number, DEFAULT);
        raise(number);
    }
}

/// From here on a signal removes this file; one that is ignored stays so.
pub fn remove_part(part: &Path) {
    let name = match CString::new(part.as_os_str().as_bytes()) {
        Ok(name) => name,
        Err(_) => return,
    };
    forget_part();
    PART.store(name.into_raw(), Ordering::SeqCst);
    for number in ENDING {
        unsafe {
            if signal(number, end as extern "C" fn(c_int) as usize) == IGNORED {
                signal(number, IGNORED);
            }
        }
    }
}

/// The file is whole, or gone.
pub fn forget_part() {
    let part = PART.swap(null_mut(), Ordering::SeqCst);
    if !part.is_null() {
        drop(unsafe { CString::from_raw(part) });
    }
}
