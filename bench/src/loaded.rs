//! An archive as a loaded library. Two archives have functions of the same names,
//! so neither is linked: each is made a shared library by the C compiler and
//! loaded, and neither has an advantage.

use std::ffi::{CStr, CString, OsStr, c_char, c_int, c_void};
use std::os::unix::ffi::OsStrExt;
use std::path::{Path, PathBuf};
use std::process::Command;

unsafe extern "C" {
    fn dlopen(name: *const c_char, flags: c_int) -> *mut c_void;
    fn dlsym(library: *mut c_void, name: *const c_char) -> *mut c_void;
    fn dlerror() -> *const c_char;
}

const RTLD_NOW: c_int = 2;

/// A library that stays loaded.
pub struct Loaded {
    library: *mut c_void,
    archive: PathBuf,
}

/// A shared library of an archive's functions, which call each other and none of
/// another library's but the C library's, its mathematics among it.
fn shared(archive: &Path, to: &Path) -> Result<(), String> {
    let cc = std::env::var_os("CC").unwrap_or("cc".into());
    let words = ["-shared", "-Wl,-Bsymbolic", "-Wl,-z,defs", "-Wl,--whole-archive"].map(OsStr::new);
    let made =
        Command::new(&cc).args(words).arg(archive).args(["-Wl,--no-whole-archive", "-lm", "-o"]).arg(to).status();
    match made {
        Ok(status) if status.success() => Ok(()),
        _ => Err(format!("{} made no library of {}", cc.display(), archive.display())),
    }
}

/// What the loader says of its last failure.
fn failure() -> String {
    // SAFETY: where it is not null it points to text that ends with a zero byte and
    // stays until the loader is called again.
    let said = unsafe { dlerror().as_ref().map(|text| CStr::from_ptr(text).to_string_lossy().into_owned()) };
    said.unwrap_or("no reason given".into())
}

/// What is found in an older archive and in one of now.
pub fn both<T>(before: &Path, now: &Path, find: impl Fn(&Loaded) -> Result<T, String>) -> Result<[T; 2], String> {
    Ok([find(&Loaded::of(before, "before")?)?, find(&Loaded::of(now, "now")?)?])
}

impl Loaded {
    /// `name` tells the libraries of one run apart.
    fn of(archive: &Path, name: &str) -> Result<Loaded, String> {
        let path = std::env::temp_dir().join(format!("badge-bench-{}-{name}.so", std::process::id()));
        shared(archive, &path)?;
        let c_path = CString::new(path.as_os_str().as_bytes()).map_err(|wrong| wrong.to_string())?;
        // SAFETY: the name ends with a zero byte; loading runs nothing of the library.
        let library = unsafe { dlopen(c_path.as_ptr(), RTLD_NOW) };
        let loaded =
            if library.is_null() { Err(failure()) } else { Ok(Loaded { library, archive: archive.to_path_buf() }) };
        // What is loaded stays; the file can go.
        std::fs::remove_file(&path).map_err(|wrong| format!("{}: {wrong}", path.display()))?;
        loaded.map_err(|wrong| format!("{} was not loaded: {wrong}", archive.display()))
    }

    /// The function of a name, as a function pointer.
    ///
    /// # Safety
    ///
    /// `F` is the type of a function pointer, and of this function's.
    pub unsafe fn function<F: Copy>(&self, name: &str) -> Result<F, String> {
        assert_eq!(size_of::<F>(), size_of::<*mut c_void>());
        let c_name = CString::new(name).map_err(|wrong| wrong.to_string())?;
        // SAFETY: the library is loaded, and the name ends with a zero byte.
        let found = unsafe { dlsym(self.library, c_name.as_ptr()) };
        if found.is_null() {
            return Err(format!("{} has no {name}", self.archive.display()));
        }
        // SAFETY: the caller says that it is of this type; the sizes are equal.
        Ok(unsafe { std::mem::transmute_copy::<*mut c_void, F>(&found) })
    }
}
