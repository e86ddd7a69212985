//! The engine and the C loop as C calls them, out of shared objects, and another build's engine.

use crate::places::{link, PLACES};
use std::ffi::{c_char, c_int, c_void, CString};
use std::mem::transmute;
use std::path::Path;

pub type Apply = unsafe extern "C" fn(
    *mut u32,
    usize,
    usize,
    *mut u32,
    usize,
    usize,
    usize,
    usize,
    *mut [usize; 10],
);

/// Read and Translate.
pub type Make = unsafe extern "C" fn(
    *mut u32,
    usize,
    usize,
    *mut u32,
    usize,
    *const u8,
    usize,
    *mut [usize; 5],
);

pub type Write = unsafe extern "C" fn(
    *const u32,
    usize,
    usize,
    *mut u32,
    usize,
    usize,
    *mut u8,
    usize,
    *mut [usize; 5],
);

pub type Run = unsafe extern "C" fn(
    *mut u32,
    usize,
    *mut u32,
    usize,
    *mut u8,
    usize,
    *const u8,
    usize,
    *mut [usize; 10],
);

/// A function, once for each place of its code.
pub type Placed<F> = [F; PLACES.len()];

extern "C" {
    fn dlopen(path: *const c_char, flags: c_int) -> *mut c_void;
    fn dlsym(object: *mut c_void, name: *const c_char) -> *mut c_void;
}

const NOW: c_int = 2;

const BUILT: &str = env!("OUT_DIR");

/// A function of a shared object in a folder, once for each place of its code.
fn placed(folder: &str, object: &str, function: &str) -> Placed<*mut c_void> {
    std::array::from_fn(|k| {
        let path = format!("{folder}/{object}_{k}.so");
        let path = CString::new(path).expect("a path");
        let function = CString::new(function).expect("a name");
        unsafe {
            let object = dlopen(path.as_ptr(), NOW);
            assert!(!object.is_null(), "no {path:?}");
            let function = dlsym(object, function.as_ptr());
            assert!(!function.is_null(), "no function in {path:?}");
            function
        }
    })
}

fn apply(object: &str, function: &str) -> Placed<Apply> {
    // The build links each of these functions with the type `Apply`.
    placed(BUILT, object, function).map(|f| unsafe { transmute::<*mut c_void, Apply>(f) })
}

/// The operations of a build of the library.
#[derive(Clone, Copy)]
pub struct Build {
    pub read: Placed<Make>,
    pub translate: Placed<Make>,
    pub write: Placed<Write>,
    pub apply: Placed<Apply>,
    pub run: Placed<Run>,
}

impl Build {
    fn of(folder: &str, object: &str) -> Self {
        let of = |function| placed(folder, object, function);
        // The library's header gives the functions these types.
        unsafe {
            Build {
                read: of("lazvorn_read").map(|f| transmute::<*mut c_void, Make>(f)),
                translate: of("lazvorn_translate").map(|f| transmute::<*mut c_void, Make>(f)),
                write: of("lazvorn_write").map(|f| transmute::<*mut c_void, Write>(f)),
                apply: of("lazvorn_apply").map(|f| transmute::<*mut c_void, Apply>(f)),
                run: of("lazvorn_run").map(|f| transmute::<*mut c_void, Run>(f)),
            }
        }
    }

    /// This build.
    pub fn this() -> Self {
        Build::of(BUILT, "libffi")
    }

    /// The build of another archive.
    pub fn other(archive: &Path) -> Self {
        let folder = format!("{BUILT}/other");
        std::fs::create_dir_all(&folder).expect("a folder");
        let linker = if cfg!(clang) { "clang" } else { "gcc" };
        link(linker, archive, Path::new(&folder));
        let name = archive.file_stem().expect("a file");
        Build::of(&folder, &name.to_string_lossy())
    }
}

/// The C loop as each compiler made it that was there.
pub fn loops() -> Vec<(&'static str, Placed<Apply>)> {
    let of = |name: &str| apply(name, name);
    vec![
        #[cfg(gcc)]
        ("C, gcc -O3", of("apply_gcc")),
        #[cfg(clang)]
        ("C, clang -O3", of("apply_clang")),
    ]
}

/// The engine, the C loop, and the C loop with the paper's checks.
pub fn applies() -> Vec<(&'static str, Placed<Apply>)> {
    let checked = |name: &str| apply(name, name);
    let mut all = vec![("engine", apply("libffi", "lazvorn_apply"))];
    all.extend(loops());
    all.extend([
        #[cfg(gcc)]
        ("C, gcc -O3, same checks", checked("apply_gcc_checked")),
        #[cfg(clang)]
        ("C, clang -O3, same checks", checked("apply_clang_checked")),
    ]);
    all
}
