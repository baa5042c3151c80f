use std::path::Path;

/// Links the archive that `./lib` leaves in the repository's target folder.
fn main() {
    let here = std::env::var("CARGO_MANIFEST_DIR").unwrap();
    let archive = Path::new(&here).join("../../target/lib").canonicalize().expect("run `./lib` first");
    println!("cargo:rustc-link-search=native={}", archive.display());
    println!("cargo:rustc-link-lib=static=cudlomer");
    println!("cargo:rerun-if-changed={}", archive.join("libcudlomer.a").display());
}
