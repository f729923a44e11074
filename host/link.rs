// What the build scripts of host/ share: links static libraries that `./library` and `rt lib` make, or those in the directory STATIC_LIBRARIES.

use std::path::Path;

fn link(names: &[&str]) {
    let usual = Path::new(env!("CARGO_MANIFEST_DIR")).join("../../target/staticlib");
    let built = std::env::var_os("STATIC_LIBRARIES").map_or(usual, Into::into);
    println!("cargo:rerun-if-env-changed=STATIC_LIBRARIES");
    println!("cargo:rustc-link-search=native={}", built.display());
    for name in names {
        let file = built.join(format!("lib{name}.a"));
        println!("cargo:rerun-if-changed={}", file.display());
        if !file.exists() {
            println!(
                "cargo::error={} is missing: make it with `./library`, or `rt lib` in crates/{name}",
                file.display()
            );
        }
        println!("cargo:rustc-link-lib=static={name}");
    }
}
