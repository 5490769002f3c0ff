use std::path::Path;

// Links the archives that `tools/archives` wrote to target/staticlib.
fn main() {
    let folder = Path::new(env!("CARGO_MANIFEST_DIR")).join("../../target/staticlib");
    println!("cargo:rustc-link-search=native={}", folder.display());
    for library in ["engine", "hgr", "sheets"] {
        let archive = folder.join(format!("lib{library}.a"));
        assert!(
            archive.is_file(),
            "{} is missing: run `bash tools/archives`",
            archive.display()
        );
        println!("cargo:rerun-if-changed={}", archive.display());
        println!("cargo:rustc-link-lib=static={library}");
    }
}
