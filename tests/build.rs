//! Says where the static libraries are that `rt lib` writes, each into its crate's folder.
//! The comparison and the benchmark link `desk` and `timed` (src/desk.rs, src/timed.rs), the comparison alone `probe`
//! (src/probe.rs).

fn main() {
    let package = std::env::var("CARGO_MANIFEST_DIR").expect("cargo names the package's folder");
    for library in ["desk", "probe", "timed"] {
        let folder = format!("{package}/../crates/{library}/out");
        println!("cargo:rustc-link-search=native={folder}");
        println!("cargo:rerun-if-changed={folder}/lib{library}.a");
    }
}
