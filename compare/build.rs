//! Links the verified code: the static library that `rt lib` writes in the folder of the crate `bridge`, and the C code of the kit beside it.

use std::path::{Path, PathBuf};
use std::process::Command;

/// The folder of the kit, from the path of the guide that `rt doc` prints.
fn kit() -> PathBuf {
    let output = Command::new("rt").arg("doc").output();
    let printed = output.expect("`rt` has to be in the path").stdout;
    let guide = String::from_utf8(printed).expect("a path in UTF-8");
    let folder = Path::new(guide.trim()).parent();
    folder.expect("a guide in the folder of the kit").to_path_buf()
}

fn main() {
    let manifest = std::env::var("CARGO_MANIFEST_DIR").expect("cargo sets it");
    let library = Path::new(&manifest).join("../crates/bridge/out");
    println!("cargo:rustc-link-search=native={}", library.display());
    println!(
        "cargo:rustc-link-search=native={}",
        kit().join("c").display()
    );
    println!("cargo:rustc-link-lib=static=bridge");
    println!("cargo:rustc-link-lib=static=os_c");
    println!("cargo:rustc-link-lib=static=libc_c");
    println!(
        "cargo:rerun-if-changed={}",
        library.join("libbridge.a").display()
    );
}
