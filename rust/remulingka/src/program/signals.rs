//! Signals: temporary files are removed when the user stops the program, and a file
//! that grows over a limit is an error like a full disk. The only module of the
//! program with `unsafe`.

#![allow(unsafe_code)]

use std::ffi::{c_char, c_int, CString};
use std::os::unix::ffi::OsStrExt;
use std::path::Path;
use std::ptr::null_mut;
use std::sync::atomic::{AtomicI32, AtomicPtr, AtomicUsize, Ordering};
use std::sync::Mutex;

const HANG_UP: c_int = 1;
const INTERRUPT: c_int = 2;
const TERMINATE: c_int = 15;
const FILE_TOO_LARGE: c_int = 25;
const DEFAULT: usize = 0;
const IGNORE: usize = 1;

extern "C" {
    fn signal(number: c_int, handler: usize) -> usize;
    fn raise(number: c_int) -> c_int;
    fn unlink(path: *const c_char) -> c_int;
}

/// Every name that was ever watched: none is given back, so that the handler never
/// reads memory that is no longer a name.
static NAMES: Mutex<Vec<CString>> = Mutex::new(Vec::new());
/// The names of the temporary files that are there now.
static TEMPORARY: [AtomicPtr<c_char>; 4096] = [const { AtomicPtr::new(null_mut()) }; 4096];
/// How many threads are giving files their names: that is not stopped halfway.
static NAMING: AtomicUsize = AtomicUsize::new(0);
/// A signal that came meanwhile.
static WAITING: AtomicI32 = AtomicI32::new(0);

/// Sets the handlers.
pub fn watch() {
    let handler = stop as extern "C" fn(c_int) as usize;
    // SAFETY: `signal` may be called at any time; the handler touches nothing but
    // atomics and calls nothing but functions that POSIX allows in handlers.
    unsafe {
        signal(FILE_TOO_LARGE, IGNORE);
        for number in [HANG_UP, INTERRUPT, TERMINATE] {
            // A signal that was ignored from the start (nohup) stays ignored.
            if signal(number, handler) == IGNORE {
                signal(number, IGNORE);
            }
        }
    }
}

extern "C" fn stop(number: c_int) {
    if NAMING.load(Ordering::SeqCst) > 0 {
        WAITING.store(number, Ordering::SeqCst);
        return;
    }
    for name in &TEMPORARY {
        let name = name.load(Ordering::SeqCst);
        if !name.is_null() {
            // SAFETY: a pointer here is that of a string in `NAMES`, which stays.
            unsafe { unlink(name) };
        }
    }
    // SAFETY: both calls are allowed in a handler; the program ends as if there had
    // been none.
    unsafe {
        signal(number, DEFAULT);
        raise(number);
    }
}

/// A temporary file that is removed when the program is stopped.
pub struct Watched(Option<usize>);

impl Watched {
    /// Watches a file. Where there are too many, it is not watched: what stays behind
    /// is removed by a later run.
    pub fn new(path: &Path) -> Watched {
        let name = CString::new(path.as_os_str().as_bytes());
        let (Ok(name), Ok(mut names)) = (name, NAMES.lock()) else {
            return Watched(None);
        };
        let start = name.as_ptr().cast_mut();
        names.push(name);
        let free = TEMPORARY.iter().position(|place| {
            let set = place.compare_exchange(null_mut(), start, Ordering::SeqCst, Ordering::SeqCst);
            set.is_ok()
        });
        Watched(free)
    }
}

impl Drop for Watched {
    fn drop(&mut self) {
        if let Some(place) = self.0 {
            TEMPORARY[place].store(null_mut(), Ordering::SeqCst);
        }
    }
}

/// Runs what gives files their names; a signal that comes meanwhile waits for its end.
pub fn without_stop<T>(name: impl FnOnce() -> T) -> T {
    NAMING.fetch_add(1, Ordering::SeqCst);
    let result = name();
    if NAMING.fetch_sub(1, Ordering::SeqCst) == 1 {
        match WAITING.swap(0, Ordering::SeqCst) {
            0 => {}
            number => stop(number),
        }
    }
    result
}
