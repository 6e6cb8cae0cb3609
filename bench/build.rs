//! Links the static library where the feature `ours` asks for it.
fn main() {
    if std::env::var_os("CARGO_FEATURE_OURS").is_some() {
        let root = std::env::var("CARGO_MANIFEST_DIR").expect("cargo sets it");
        // `merges` times two libraries in one run, and names the folder of each
        let folder = std::env::var("LIBRARY_FOLDER").unwrap_or(format!("{root}/../target/staticlib"));
        println!("cargo:rustc-link-search=native={folder}");
        println!("cargo:rustc-link-lib=static=linenhatch");
        println!("cargo:rerun-if-changed={folder}/liblinenhatch.a");
        println!("cargo:rerun-if-env-changed=LIBRARY_FOLDER");
    }
}
