//! Prints the wrapper's constants, a name and a value to a line: tests/constants compares them with the proved code's.

use mapcache::{
    CARRY_BYTES, DEFAULT_GHOST_RATIO, DEFAULT_SMALL_RATIO, MAX_FREQ, MOST, MOST_REQUEST_BYTES, Settings, VERSION,
    store_bytes,
};

fn main() {
    println!("version {VERSION}");
    println!("max_freq {MAX_FREQ}");
    println!("default_small_ratio {}", DEFAULT_SMALL_RATIO.to_bits());
    println!("default_ghost_ratio {}", DEFAULT_GHOST_RATIO.to_bits());
    println!("store_bytes {}", store_bytes());
    println!("most {MOST}");
    println!("most_request_bytes {MOST_REQUEST_BYTES}");
    println!("carry_bytes {CARRY_BYTES}");
    let settings = Settings::with_capacity(100);
    println!("settings_capacity {}", settings.capacity);
    println!("settings_small_ratio {}", settings.small_ratio.to_bits());
    println!("settings_ghost_ratio {}", settings.ghost_ratio.to_bits());
}
