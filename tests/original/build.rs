//! Writes the crate root that names the original's files where they stand. They stay as they are, so lints are off
//! there. With the feature `observe` the policy is compiled from a copy that differs by one declaration at its end:
//! src/observe.rs is its child module.

use std::env;
use std::fs;
use std::path::{Path, PathBuf};

const POLICY: &str = "policy/s3_fifo.rs";
const FILES: [&str; 10] = [
    "error.rs",
    "traits.rs",
    "ds/ghost_list.rs",
    "ds/intrusive_list.rs",
    "ds/slot_arena.rs",
    "metrics/cell.rs",
    "metrics/metrics_impl.rs",
    "metrics/snapshot.rs",
    "metrics/traits.rs",
    POLICY,
];

fn main() {
    println!("cargo:rerun-if-env-changed=ORIGINAL");
    println!("cargo:rerun-if-changed=build.rs");
    println!("cargo:rerun-if-changed=src/observe.rs");
    let sources = original_sources();
    let out = PathBuf::from(env::var("OUT_DIR").expect("cargo sets OUT_DIR"));
    let policy = match env::var_os("CARGO_FEATURE_OBSERVE") {
        Some(_) => with_child_module(&sources.join(POLICY), &out),
        None => sources.join(POLICY),
    };
    fs::write(out.join("root.rs"), root(&sources, &policy)).expect("OUT_DIR can be written");
}

/// The folder src/ of the original, all of whose files that are needed are there.
fn original_sources() -> PathBuf {
    let given = env::var("ORIGINAL")
        .unwrap_or_else(|_| panic!("set ORIGINAL to the folder that holds the original's src/ (make passes it on)"));
    let sources = Path::new(&given).join("src");
    for file in FILES {
        let path = sources.join(file);
        assert!(path.is_file(), "ORIGINAL={given}: there is no file {}", path.display());
        println!("cargo:rerun-if-changed={}", path.display());
    }
    sources
}

fn with_child_module(policy: &Path, out: &Path) -> PathBuf {
    let here = env::var("CARGO_MANIFEST_DIR").expect("cargo sets CARGO_MANIFEST_DIR");
    let child = Path::new(&here).join("src/observe.rs");
    let mut text = fs::read_to_string(policy).expect("the original can be read");
    text.push_str(&format!("\n#[path = {child:?}]\npub mod observe;\n"));
    let copy = out.join("s3_fifo.rs");
    fs::write(&copy, text).expect("OUT_DIR can be written");
    copy
}

fn root(sources: &Path, policy: &Path) -> String {
    let module = |file: &str, name: &str| format!("#[path = {:?}] pub mod {name};", sources.join(file));
    format!(
        "#[allow(dead_code, clippy::all)] pub mod ds {{
            {ghost_list}
            {intrusive_list}
            {slot_arena}
            pub use ghost_list::GhostList;
            pub use intrusive_list::IntrusiveList;
            pub use slot_arena::{{SlotArena, SlotId}};
        }}
        #[allow(clippy::all)] {error}
        #[allow(clippy::all)] {traits}
        #[cfg(feature = \"metrics\")] #[allow(dead_code, clippy::all)] pub mod metrics {{
            {cell}
            {metrics_impl}
            {snapshot}
            {metrics_traits}
        }}
        #[allow(clippy::all)] pub mod policy {{ #[path = {policy:?}] pub mod s3_fifo; }}
        ",
        ghost_list = module("ds/ghost_list.rs", "ghost_list"),
        intrusive_list = module("ds/intrusive_list.rs", "intrusive_list"),
        slot_arena = module("ds/slot_arena.rs", "slot_arena"),
        error = module("error.rs", "error"),
        traits = module("traits.rs", "traits"),
        cell = module("metrics/cell.rs", "cell"),
        metrics_impl = module("metrics/metrics_impl.rs", "metrics_impl"),
        snapshot = module("metrics/snapshot.rs", "snapshot"),
        metrics_traits = module("metrics/traits.rs", "traits"),
    )
}
