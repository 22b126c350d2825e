//! Links the proved archive, libmapcache.a. `make library` (`rt lib`) leaves it in crates/mapcache/out at the top of the
//! repository; MAPCACHE_LIB_DIR names another folder, as one that `make install` filled. The version comes from the one
//! place that has it, through tools/version.

use std::env;
use std::path::{Path, PathBuf};
use std::process::{Command, exit};

const TOP: &str = concat!(env!("CARGO_MANIFEST_DIR"), "/../..");

fn main() {
    let folder = archive_folder();
    println!("cargo:rustc-link-search=native={}", folder.display());
    println!("cargo:rustc-link-lib=static=mapcache");
    println!("cargo:rustc-env=MAPCACHE_VERSION={}", version());
}

fn archive_folder() -> PathBuf {
    println!("cargo:rerun-if-env-changed=MAPCACHE_LIB_DIR");
    let folder = env::var_os("MAPCACHE_LIB_DIR").map_or(Path::new(TOP).join("crates/mapcache/out"), PathBuf::from);
    let archive = folder.join("libmapcache.a");
    if !archive.is_file() {
        let archive = archive.display();
        stop(&format!("there is no {archive}: run `make library`, or set MAPCACHE_LIB_DIR to a folder that has it"));
    }
    println!("cargo:rerun-if-changed={}", archive.display());
    folder
}

fn version() -> String {
    let script = Path::new(TOP).join("tools/version");
    for file in ["tools/version", "crates/s3_fifo/src/lib.rt"] {
        println!("cargo:rerun-if-changed={TOP}/{file}");
    }
    let said = Command::new(&script).output().unwrap_or_else(|error| stop(&format!("{}: {error}", script.display())));
    if !said.status.success() {
        stop(&String::from_utf8_lossy(&said.stderr));
    }
    String::from_utf8_lossy(&said.stdout).trim().to_owned()
}

fn stop(problem: &str) -> ! {
    eprintln!("{problem}");
    exit(1)
}
