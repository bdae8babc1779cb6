//! Shows Cargo where `libfifobench.a` lies: in the folder that `FIFOBENCH_DIR` names, else in that of the same installation.

use std::env;
use std::path::Path;

fn main() {
    println!("cargo:rerun-if-env-changed=FIFOBENCH_DIR");
    let installed = Path::new(&env::var("CARGO_MANIFEST_DIR").unwrap_or_default()).join("../../../lib");
    match env::var("FIFOBENCH_DIR") {
        Ok(folder) => println!("cargo:rustc-link-search=native={folder}"),
        Err(_) if installed.join("libfifobench.a").is_file() => {
            println!("cargo:rustc-link-search=native={}", installed.display());
        }
        Err(_) => println!("cargo:warning=FIFOBENCH_DIR isn't set to the folder that library/build filled"),
    }
}
