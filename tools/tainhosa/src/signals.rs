//! A file that grows beyond a limit is an error to tell, and a temporary file goes away where the command is interrupted.
use std::ffi::CString;
use std::os::raw::c_char;
use std::os::unix::ffi::OsStrExt;
use std::path::Path;
use std::ptr::null_mut;
use std::sync::atomic::{AtomicPtr, Ordering};

const HANGUP: i32 = 1;
const INTERRUPT: i32 = 2;
const TERMINATE: i32 = 15;
const FILE_TOO_LARGE: i32 = 25;
/// SIG_IGN of the system's C library.
const IGNORE: usize = 1;

extern "C" {
    fn signal(number: i32, handler: usize) -> usize;
    fn unlink(path: *const c_char) -> i32;
    fn _exit(status: i32) -> !;
}

/// The path of the temporary file that stands now, or null.
static TEMPORARY: AtomicPtr<c_char> = AtomicPtr::new(null_mut());

extern "C" fn interrupted(number: i32) {
    let path = TEMPORARY.swap(null_mut(), Ordering::SeqCst);
    // Both functions may be called in a handler, and the path is a string that is kept.
    unsafe {
        if !path.is_null() {
            unlink(path);
        }
        _exit(128 + number)
    }
}

/// To be called once, first.
pub fn prepare() {
    unsafe { signal(FILE_TOO_LARGE, IGNORE) };
    for number in [HANGUP, INTERRUPT, TERMINATE] {
        let handler = interrupted as extern "C" fn(i32) as usize;
        // A signal that whoever started the command has it ignore stays ignored.
        if unsafe { signal(number, handler) } == IGNORE {
            unsafe { signal(number, IGNORE) };
        }
    }
}

/// From now on this file is to go away on an interruption; or none.
pub fn remove_if_interrupted(path: Option<&Path>) {
    let string = path.and_then(|path| CString::new(path.as_os_str().as_bytes()).ok());
    let before = TEMPORARY.swap(string.map_or(null_mut(), |s| s.into_raw()), Ordering::SeqCst);
    if !before.is_null() {
        // It came from `into_raw`, and nobody else has it any more.
        drop(unsafe { CString::from_raw(before) });
    }
}
