//! Links libmelfjits, from the folder MELFJITS_LIBRARY_FOLDER if that is set.

fn main() {
    println!("cargo:rerun-if-env-changed=MELFJITS_LIBRARY_FOLDER");
    if let Ok(folder) = std::env::var("MELFJITS_LIBRARY_FOLDER") {
        println!("cargo:rustc-link-search=native={folder}");
    }
    println!("cargo:rustc-link-lib=melfjits");
}
