//! What the benchmarks link: the proved library as a static library, and the system's SQLite and LMDB.

fn main() {
    let root = std::env::var("CARGO_MANIFEST_DIR").unwrap();
    println!("cargo:rustc-link-search=native={root}/../crates/exports/out");
    println!("cargo:rustc-link-lib=static=exports");
    println!("cargo:rustc-link-lib=dylib=sqlite3");
    println!("cargo:rustc-link-lib=dylib=lmdb");
    println!("cargo:rerun-if-changed={root}/../crates/exports/out/libexports.a");
}
