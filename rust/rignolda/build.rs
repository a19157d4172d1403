//! Links the archive of the proved library: that which `RIGNOLDA_LIBRARY` names, else that of the
//! target, which lies in `lib/` of this crate.
use std::path::{Path, PathBuf};
use std::{env, fs};

fn main() {
    let home = PathBuf::from(env::var_os("CARGO_MANIFEST_DIR").unwrap());
    let out = env::var("OUT_DIR").unwrap();
    println!("cargo:rerun-if-env-changed=RIGNOLDA_LIBRARY");
    let library = env::var_os("RIGNOLDA_LIBRARY").map_or_else(
        || {
            // (of a C library an archive needs `memmove` at most, so it is the same one for each)
            let processor = env::var("CARGO_CFG_TARGET_ARCH").unwrap();
            let system = env::var("CARGO_CFG_TARGET_OS").unwrap();
            home.join(format!("lib/{processor}-{system}.a"))
        },
        PathBuf::from,
    );
    assert!(
        library.is_file(),
        "there is no archive {}: set RIGNOLDA_LIBRARY to the path of one for this target",
        library.display()
    );
    println!("cargo:rerun-if-changed={}", library.display());
    let to = Path::new(&out).join("librignolda.a");
    fs::copy(&library, to).expect("the archive can be copied");
    println!("cargo:rustc-link-search=native={out}");
    println!("cargo:rustc-link-lib=static=rignolda");
}
