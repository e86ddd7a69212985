//! Compiles the C loop, by gcc and by clang where each is there, and links it and the engine into
//! shared objects, each once for every place of its code.
use std::path::{Path, PathBuf};
use std::process::Command;

#[path = "src/places.rs"]
mod places;
use places::link;

fn main() {
    println!("cargo:rerun-if-changed=c/apply.c");
    println!("cargo:rerun-if-changed=src/places.rs");
    let out = PathBuf::from(std::env::var("OUT_DIR").expect("cargo sets OUT_DIR"));
    let engine = Path::new(env!("CARGO_MANIFEST_DIR")).join("../../target/staticlib/libffi.a");
    println!("cargo:rerun-if-changed={}", engine.display());
    let mut linker = None;
    for compiler in ["gcc", "clang"] {
        println!("cargo:rustc-check-cfg=cfg({compiler})");
        let Some(objects) = compile(compiler, &out) else {
            continue;
        };
        for object in objects {
            link(compiler, &object, &out);
        }
        linker = Some(compiler);
        println!("cargo:rustc-cfg={compiler}");
    }
    link(linker.expect("gcc or clang"), &engine, &out);
}

/// The loop without the paper's checks, and with them, where the compiler is there. Each compiler gets the
/// form that is faster by it: leaf and stem in one branch, or in two.
fn compile(compiler: &str, out: &Path) -> Option<[PathBuf; 2]> {
    let split: &[&str] = if compiler == "clang" {
        &["-DSPLIT"]
    } else {
        &[]
    };
    let object = |words: &[&str], name: String| {
        let object = out.join(format!("{name}.o"));
        let status = Command::new(compiler)
            .args(["-O3", "-std=c11", "-Wall", "-Wextra", "-fPIC", "-c"])
            .arg("c/apply.c")
            .args(split)
            .args(words)
            .arg(format!("-DAPPLY={name}"))
            .arg("-o")
            .arg(&object)
            .status();
        status
            .is_ok_and(|status| status.success())
            .then_some(object)
    };
    Some([
        object(&[], format!("apply_{compiler}"))?,
        object(&["-DCHECKED"], format!("apply_{compiler}_checked"))?,
    ])
}
