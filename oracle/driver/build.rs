//! Links our static library where the feature `library` asks for it.
fn main() {
    println!("cargo:rerun-if-env-changed=OURS_LIBRARY");
    if let Ok(library) = std::env::var("OURS_LIBRARY") {
        println!("cargo:rerun-if-changed={library}");
        println!("cargo:rustc-link-arg-bins={library}");
    }
}
