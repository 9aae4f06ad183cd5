//! Links libmilchkompass.a: from the folder that MILCHKOMPASS_LIB_DIR names, or
//! else from the checkout in which this crate lies.

use std::env;
use std::path::PathBuf;
use std::process::exit;

const VARIABLE: &str = "MILCHKOMPASS_LIB_DIR";

fn main() {
    println!("cargo:rerun-if-env-changed={VARIABLE}");
    let folder = match env::var_os(VARIABLE) {
        Some(folder) => PathBuf::from(folder),
        None => {
            let own = env::var_os("CARGO_MANIFEST_DIR").expect("cargo sets it");
            PathBuf::from(own).join("../../target/milchkompass/lib")
        }
    };
    let library = folder.join("libmilchkompass.a");
    println!("cargo:rerun-if-changed={}", library.display());
    if !folder.is_absolute() {
        fail(&format!("{VARIABLE} is not absolute: {}", folder.display()));
    }
    if !library.is_file() {
        fail(&format!("there is no {}", library.display()));
    }
    println!("cargo:rustc-link-search=native={}", folder.display());
    println!("cargo:rustc-link-lib=static=milchkompass");
}

fn fail(why: &str) -> ! {
    eprintln!("{why}");
    eprintln!("run `bindings/library` in the checkout of Milchkompass,");
    eprintln!("or set {VARIABLE} to the folder of libmilchkompass.a");
    exit(1);
}
