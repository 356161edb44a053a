// The archives that `tools/build` proves and writes in this repository.
fn main() {
    let root = std::env::var("CARGO_MANIFEST_DIR").unwrap();
    let folder = format!("{root}/../../target/staticlib");
    println!("cargo:rustc-link-search=native={folder}");
    if std::env::var_os("CARGO_FEATURE_BEFORE").is_some() {
        println!("cargo:rustc-link-search=native={root}/../../target/before");
        for name in ["catalog_c", "form"] {
            println!("cargo:rustc-link-lib=static=before_{name}");
            println!("cargo:rerun-if-changed={root}/../../target/before/libbefore_{name}.a");
        }
    }
    for name in ["catalog_c", "form"] {
        println!("cargo:rustc-link-lib=static={name}");
        println!("cargo:rerun-if-changed={folder}/lib{name}.a");
    }
}
