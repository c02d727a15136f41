//! With the feature `rattle`, links a static library that has the interface of
//! `src/bin/bench.rs`: RATTLE_LIB_DIR is its directory, RATTLE_LIB its name
//! (default `bench_c`, for libbench_c.a).

fn main() {
    println!("cargo:rerun-if-changed=build.rs");
    println!("cargo:rerun-if-env-changed=RATTLE_LIB_DIR");
    println!("cargo:rerun-if-env-changed=RATTLE_LIB");
    if std::env::var_os("CARGO_FEATURE_RATTLE").is_none() {
        return;
    }
    let directory = std::env::var("RATTLE_LIB_DIR")
        .expect("the feature `rattle` needs RATTLE_LIB_DIR, the directory of the static library");
    let name = std::env::var("RATTLE_LIB").unwrap_or_else(|_| "bench_c".to_string());
    println!("cargo:rustc-link-search=native={directory}");
    println!("cargo:rustc-link-lib=static={name}");
}
