//! Links the proved archive, libstackfilter.a. It stands in the folder that STACKFILTER_LIB_DIR names,
//! taken from where cargo was called, or else in the repository's folder build, where hosts/build writes it.

use std::env;
use std::path::PathBuf;
use std::process::exit;

fn main() {
    println!("cargo:rerun-if-env-changed=STACKFILTER_LIB_DIR");
    let folder = match env::var_os("STACKFILTER_LIB_DIR") {
        Some(folder) => from_where_the_user_stands(PathBuf::from(folder)),
        None => of_environment("CARGO_MANIFEST_DIR").join("../../build"),
    };
    let archive = folder.join("libstackfilter.a");
    if !archive.is_file() {
        eprintln!(
            "{} is not there: run hosts/build in the repository of stackfilter, \
             or set STACKFILTER_LIB_DIR to the folder that has it",
            archive.display()
        );
        exit(1);
    }
    println!("cargo:rerun-if-changed={}", archive.display());
    println!("cargo:rustc-link-search=native={}", folder.display());
    println!("cargo:rustc-link-lib=static=stackfilter");
}

/// A relative folder, from where the shell stands in which cargo was called: this program stands in the package.
fn from_where_the_user_stands(folder: PathBuf) -> PathBuf {
    if folder.is_absolute() {
        return folder;
    }
    println!("cargo:rerun-if-env-changed=PWD");
    of_environment("PWD").join(folder)
}

/// The path in a variable of the environment.
fn of_environment(name: &str) -> PathBuf {
    match env::var_os(name) {
        Some(path) => PathBuf::from(path),
        None => {
            eprintln!("{name} is not set: set STACKFILTER_LIB_DIR to the absolute path of the folder that has libstackfilter.a");
            exit(1);
        }
    }
}
