//! Where code lies decides up to a third of such a loop's speed, so a contender is linked into shared
//! objects once for every place of its code, and gets all places. The build does this for Apply, and
//! the benchmark itself for another build of the library.
use std::path::Path;
use std::process::Command;

/// The places: so many bytes after a multiple of 64.
pub const PLACES: [usize; 4] = [0, 16, 32, 48];

/// Links an object or an archive into NAME_K.so for each place K.
pub fn link(linker: &str, object: &Path, out: &Path) {
    let name = object.file_stem().expect("a file").to_string_lossy();
    for (k, place) in PLACES.into_iter().enumerate() {
        let bytes = ".byte 0x90\n".repeat(place);
        let before = out.join(format!("before_{place}.s"));
        let code = format!(".text\n.p2align 6\n{bytes}.section .note.GNU-stack,\"\",@progbits\n");
        std::fs::write(&before, code).expect("the assembler's file is written");
        let status = Command::new(linker)
            .args(["-shared", "-Wl,-Bsymbolic"])
            .arg(&before)
            .arg("-Wl,--whole-archive")
            .arg(object)
            .arg("-Wl,--no-whole-archive")
            .arg("-o")
            .arg(out.join(format!("{name}_{k}.so")))
            .status();
        assert!(status.is_ok_and(|s| s.success()), "{linker} cannot link");
    }
}
