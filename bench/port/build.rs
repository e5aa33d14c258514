// Links the archive that RATTLE_LIB names: target/staticlib/libboundary.a, which tools/archive writes.
fn main() {
    println!("cargo:rerun-if-env-changed=RATTLE_LIB");
    let lib = std::path::PathBuf::from(std::env::var("RATTLE_LIB").expect("RATTLE_LIB=.../libboundary.a: bench/run sets it"));
    println!("cargo:rerun-if-changed={}", lib.display());
    println!("cargo:rustc-link-search=native={}", lib.parent().unwrap().display());
    println!("cargo:rustc-link-lib=static=boundary");
}
