//! Finds the static library of the proved implementation, which `library.sh` at the top of the repository leaves there.
//! Nothing is built or tested without it.

use std::path::Path;

fn main() {
    let folder = Path::new(env!("CARGO_MANIFEST_DIR")).join("../../target/staticlib");
    let library = folder.join("libporvuund.a");
    println!("cargo::rerun-if-changed={}", library.display());
    assert!(
        library.is_file(),
        "{} is missing: run `bash library.sh` at the top of the repository first",
        library.display()
    );
    println!("cargo::rustc-link-search=native={}", folder.display());
    println!("cargo::rustc-link-lib=static=porvuund");
}
