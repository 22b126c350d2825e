//! A state of the cache as the rules speak of it (RULES 1), whichever side it was read from.

use std::fmt;

#[derive(Clone, Copy, Debug, PartialEq, Eq)]
pub struct Entry {
    pub key: u64,
    pub value: u64,
    pub frequency: u8,
}

/// Queues head first, ghosts newest first.
#[derive(Clone, Debug, PartialEq, Eq)]
pub struct State {
    pub capacity: u64,
    pub small_limit: u64,
    pub ghost_limit: u64,
    pub small: Vec<Entry>,
    pub main: Vec<Entry>,
    pub ghosts: Vec<u64>,
}

impl fmt::Display for State {
    fn fmt(&self, f: &mut fmt::Formatter<'_>) -> fmt::Result {
        writeln!(
            f,
            "  capacity {}, Small limit {}, ghost limit {}",
            self.capacity, self.small_limit, self.ghost_limit
        )?;
        writeln!(f, "  Small  {}", entries(&self.small))?;
        writeln!(f, "  Main   {}", entries(&self.main))?;
        write!(f, "  ghosts {:?}", self.ghosts)
    }
}

/// Each entry as key=value*frequency.
fn entries(entries: &[Entry]) -> String {
    let each: Vec<String> = entries.iter().map(|e| format!("{}={}*{}", e.key, e.value, e.frequency)).collect();
    format!("[{}]", each.join(", "))
}
