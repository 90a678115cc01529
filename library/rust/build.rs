//! Says where libmurzicanu.a is: in the folder that MURZICANU_LIB names, or where `library/build` puts it. cargo compares
//! the time of the file, and builds the crate again where the archive is newer.

use std::env;
use std::path::{Path, PathBuf};
use std::process::exit;

fn main() {
    println!("cargo:rerun-if-env-changed=MURZICANU_LIB");
    let here = PathBuf::from(env::var_os("CARGO_MANIFEST_DIR").expect("cargo names the crate's folder"));
    let named = env::var_os("MURZICANU_LIB");
    let folder = here.join(named.as_deref().map_or(Path::new("../../target/staticlib"), Path::new));
    let archive = folder.join("libmurzicanu.a");
    println!("cargo:rerun-if-changed={}", archive.display());
    if !archive.is_file() {
        eprintln!("There is no {}.", archive.display());
        match named {
            Some(_) => eprintln!("MURZICANU_LIB has to name the folder of libmurzicanu.a, which library/build makes."),
            None => eprintln!("Run library/build, which makes it, or let MURZICANU_LIB name the folder that has it."),
        }
        exit(1);
    }
    println!("cargo:rustc-link-search=native={}", folder.display());
    println!("cargo:rustc-link-lib=static=murzicanu");
}
