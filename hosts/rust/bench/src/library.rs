//! A library of the system that is opened while the program runs, so that nothing of it is needed to build.

use std::ffi::{c_char, c_int, c_void, CStr};

const RTLD_NOW: c_int = 2;

extern "C" {
    fn dlopen(name: *const c_char, flags: c_int) -> *mut c_void;
    fn dlsym(library: *mut c_void, name: *const c_char) -> *mut c_void;
    fn dlerror() -> *const c_char;
}

/// It stays open until the process ends, so what is found in it can be called to the end.
pub struct Library {
    handle: *mut c_void,
}

impl Library {
    /// Found where the system looks for libraries; or why it is not.
    pub fn open(name: &CStr) -> Result<Library, String> {
        // SAFETY: the name ends with 0; what a library runs when it is loaded is the system's to answer for
        let handle = unsafe { dlopen(name.as_ptr(), RTLD_NOW) };
        if handle.is_null() {
            return Err(last_error());
        }
        Ok(Library { handle })
    }

    /// The function of this name.
    ///
    /// # Safety
    /// F is a pointer to a function, and of the type that the library's header gives to it.
    pub unsafe fn function<F: Copy>(&self, name: &CStr) -> Result<F, String> {
        assert_eq!(size_of::<F>(), size_of::<*mut c_void>(), "F is a pointer");
        // SAFETY: the handle is open, the name ends with 0
        let found = unsafe { dlsym(self.handle, name.as_ptr()) };
        if found.is_null() {
            return Err(last_error());
        }
        // SAFETY: the caller's promise; the two are of one size
        Ok(unsafe { std::mem::transmute_copy(&found) })
    }
}

/// In the words of the system.
fn last_error() -> String {
    // SAFETY: no other thread opens libraries; the words stand until the next call, and they are copied
    let words = unsafe { dlerror() };
    if words.is_null() {
        return "it has no address".to_string();
    }
    // SAFETY: not null, and so a string that ends with 0
    unsafe { CStr::from_ptr(words) }.to_string_lossy().into_owned()
}
