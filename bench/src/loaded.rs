//! The library of this commit and that of another, opened from shared objects at run time until the program ends. They
//! lie in memory alike: where a function begins can change its time by a twentieth.

use crate::capi::Library;
use std::ffi::{c_char, c_int, c_void, CStr, CString};
use std::fs;
use std::os::unix::ffi::OsStringExt;
use std::ptr::NonNull;

/// As in <dlfcn.h>: all that it needs is found at once, and nothing of it is lent to others.
const RTLD_NOW: c_int = 2;

extern "C" {
    fn dlopen(file: *const c_char, flags: c_int) -> *mut c_void;
    fn dlsym(library: *mut c_void, name: *const c_char) -> *mut c_void;
    fn dlerror() -> *const c_char;
}

/// Of this commit as it was linked, and of another.
#[derive(Clone, Copy)]
pub struct Loaded {
    pub capi: Library,
    pub before: Library,
}

/// The other library is at the path; or a line that says what is wrong with it.
pub fn load(path: &str) -> Result<Loaded, String> {
    Ok(Loaded { capi: open("capi", env!("SHARED_CAPI"))?, before: open("before", path)? })
}

fn open(name: &'static str, path: &str) -> Result<Library, String> {
    // A name without a slash would be looked for among the system's libraries.
    let file = fs::canonicalize(path).map_err(|error| format!("{path}: {error}"))?;
    let file = CString::new(file.into_os_string().into_vec()).map_err(|error| format!("{path}: {error}"))?;
    // SAFETY: the name ends with a zero byte; what a library runs when it is opened is the caller's choice of library.
    let library = NonNull::new(unsafe { dlopen(file.as_ptr(), RTLD_NOW) }).ok_or_else(last_error)?;
    // SAFETY: it is never closed, and a library with these names is taken to have the header's calls.
    unsafe { Library::found(name, |call| find(library, call)) }
}

fn find(library: NonNull<c_void>, name: &CStr) -> Result<NonNull<c_void>, String> {
    // SAFETY: the library is open, and the name ends with a zero byte.
    NonNull::new(unsafe { dlsym(library.as_ptr(), name.as_ptr()) }).ok_or_else(last_error)
}

/// What the last of the calls above found wrong.
fn last_error() -> String {
    // SAFETY: the text stays until the next of these calls, and no other thread makes any.
    let text = NonNull::new(unsafe { dlerror() }.cast_mut()).map(|text| unsafe { CStr::from_ptr(text.as_ptr()) });
    text.map_or("the library has no such call".to_string(), |text| text.to_string_lossy().into_owned())
}
