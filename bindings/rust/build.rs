//! Links libtelgovan.a from the folder that TELGOVAN_LIB names, from this crate's lib/, where a
//! release has it, or from bindings/out, where `bindings/build` makes it.

use std::env;
use std::path::{Path, PathBuf};
use std::process;

const LIBRARY: &str = "libtelgovan.a";

/// The folder of the library.
fn folder() -> PathBuf {
    println!("cargo:rerun-if-env-changed=TELGOVAN_LIB");
    if let Some(folder) = env::var_os("TELGOVAN_LIB") {
        return PathBuf::from(folder);
    }
    let here = env::var_os("CARGO_MANIFEST_DIR").expect("cargo sets it");
    let own = Path::new(&here).join("lib");
    if own.join(LIBRARY).exists() {
        own
    } else {
        Path::new(&here).join("../out")
    }
}

/// Says what to do where the library isn't there.
fn advise(library: &Path) {
    eprintln!(
        "\ntelgovan needs its library: {} isn't there. One of these gives it:
  - set TELGOVAN_LIB to the folder of {LIBRARY}, as a whole path;
  - in telgovan's repository, `./try kept library` compiles one without a proof, in some minutes:
    export TELGOVAN_LIB=$(./try kept library)
  - in telgovan's repository, `bindings/build` proves and builds one, in bindings/out;
  - a release's crate has one in its lib/.\n",
        library.display()
    );
}

fn main() {
    let folder = folder();
    let library = folder.join(LIBRARY);
    println!("cargo:rerun-if-changed={}", library.display());
    if !library.is_file() {
        advise(&library);
        process::exit(1);
    }
    println!("cargo:rustc-link-search=native={}", folder.display());
    println!("cargo:rustc-link-lib=static=telgovan");
}
