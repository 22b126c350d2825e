//! One scenario of the example host, step by step: which pairs leave the cache, and that nothing is lost.

use mapcache::{Cache, GuestBlock, PhysicalBlock, Settings, VERSION};
use std::collections::BTreeSet;
use std::path::{Path, PathBuf};
use std::process::ExitCode;
use thin::{Disks, Emptying, Host, Result, name};

const HELP: &str = "usage: thin [--map FILE]
Shows a thin provisioning host over the mapping cache: two guests with two blocks each, a cache of two pairs.
  --map FILE  where the map is kept (thin.map in the folder for temporary files)
  --version   the version of the mapping cache
Exit status: 0 every block is found where it is; 1 one is not, or something failed; 2 bad usage.";

const DISKS: Disks = Disks { guests: 2, blocks: 2 };
const CAPACITY: u64 = 2;
const PHYSICAL_BLOCKS: u64 = 6;

type ThinHost = Host<Cache<Box<[u8]>>>;

fn main() -> ExitCode {
    let words: Vec<String> = std::env::args().skip(1).collect();
    let words: Vec<&str> = words.iter().map(String::as_str).collect();
    let map = match words.as_slice() {
        [] => std::env::temp_dir().join("thin.map"),
        ["--map", file] => PathBuf::from(file),
        ["--version"] => {
            println!("thin {VERSION}");
            return ExitCode::SUCCESS;
        },
        ["--help" | "-h"] => {
            println!("{HELP}");
            return ExitCode::SUCCESS;
        },
        _ => {
            eprintln!("{HELP}");
            return ExitCode::from(2);
        },
    };
    let shown = scenario(&map);
    let _ = std::fs::remove_file(&map);
    match shown {
        Ok(()) => ExitCode::SUCCESS,
        Err(problem) => {
            eprintln!("thin: {problem}");
            ExitCode::FAILURE
        },
    }
}

fn scenario(map: &Path) -> Result<()> {
    let mut host = ThinHost::start(Settings::with_capacity(CAPACITY), DISKS, PHYSICAL_BLOCKS, map)?;
    let mut places = Vec::new();
    for guest in DISKS.all() {
        let place = host.write(guest)?;
        tell(&host, &format!("{} is written", name(guest)), place);
        places.push((guest, place));
    }
    host.sweep()?;
    println!("sweep: {} physical blocks are neither in the map nor resident", host.free());
    places[0].1 = host.give_out(places[0].0)?;
    tell(&host, &format!("{} is moved", name(places[0].0)), places[0].1);
    let mut host = host.restart(Emptying::ByRemoving)?;
    tell(&host, "planned restart, every pair taken out first", None);
    for (guest, _) in &places {
        let place = host.read(*guest)?;
        tell(&host, &format!("{} is read", name(*guest)), place);
    }
    all_as_they_were(&mut host, &places)
}

/// What happened, where the block is, and how many pairs the map has been told of so far.
fn tell(host: &ThinHost, what: &str, place: Option<PhysicalBlock>) {
    let place = place.map_or(String::new(), |physical| format!(": {physical}"));
    println!("{what}{place} (pairs written to the map: {})", host.pairs_written);
}

fn all_as_they_were(host: &mut ThinHost, places: &[(GuestBlock, Option<PhysicalBlock>)]) -> Result<()> {
    for (guest, place) in places {
        if place.is_none() || host.read(*guest)? != *place {
            return Err(format!("{} is not found where it is", name(*guest)).into());
        }
    }
    let different: BTreeSet<_> = places.iter().map(|(_, place)| place).collect();
    if different.len() != places.len() {
        return Err("a physical block belongs to two".into());
    }
    println!("Every block is found where it is, and no physical block belongs to two.");
    Ok(())
}
