//! Links liblent.a from the folder that the variable LENT names.

use std::env;
use std::path::Path;

fn main() {
    println!("cargo:rerun-if-env-changed=LENT");
    let Ok(folder) = env::var("LENT") else {
        panic!("set LENT to the folder of liblent.a, absolute (crates/lent/out, by `rt lib`)");
    };
    let library = Path::new(&folder).join("liblent.a");
    println!("cargo:rerun-if-changed={}", library.display());
    println!("cargo:rustc-link-search=native={folder}");
    println!("cargo:rustc-link-lib=static=lent");
}
