//! Links the archive that `./archive capi` makes: from $LAKSOVUTH_ARCHIVE, a folder, or from target/staticlib of this repository.
use std::env;
use std::path::PathBuf;

fn main() {
    println!("cargo:rerun-if-env-changed=LAKSOVUTH_ARCHIVE");
    let here = PathBuf::from(env::var("CARGO_MANIFEST_DIR").unwrap());
    let folder = match env::var("LAKSOVUTH_ARCHIVE") {
        Ok(folder) => PathBuf::from(folder),
        Err(_) => here.join("../target/staticlib"),
    };
    let archive = folder.join("libcapi.a");
    println!("cargo:rerun-if-changed={}", archive.display());
    assert!(
        env::var("CARGO_CFG_TARGET_ARCH").as_deref() == Ok("x86_64"),
        "the archive is built for x86-64 only: build with --target x86_64-unknown-linux-gnu"
    );
    assert!(
        archive.exists(),
        "no {}: run `./archive capi` in the repository first",
        archive.display()
    );
    println!("cargo:rustc-link-search=native={}", folder.display());
    println!("cargo:rustc-link-lib=static=capi");
}
