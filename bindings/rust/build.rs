//! Says where the C library is: in the folder that FIORRUDDA_LIB_DIR names, or where `bin/lib` has left it, and there
//! the static one is linked; or else that of the system, by its name.
use std::env;
use std::path::PathBuf;

fn main() {
    println!("cargo:rerun-if-env-changed=FIORRUDDA_LIB_DIR");
    let here = PathBuf::from(env::var_os("CARGO_MANIFEST_DIR").expect("cargo names the crate's folder"));
    let beside = Some(here.join("../../out/lib")).filter(|it| it.join("libfiorrudda.a").exists());
    match env::var_os("FIORRUDDA_LIB_DIR").map(PathBuf::from).or(beside) {
        Some(folder) => {
            println!("cargo:rustc-link-search=native={}", folder.display());
            println!("cargo:rustc-link-lib=static=fiorrudda");
            println!("cargo:rerun-if-changed={}", folder.join("libfiorrudda.a").display());
        }
        None => println!("cargo:rustc-link-lib=dylib=fiorrudda"),
    }
}
