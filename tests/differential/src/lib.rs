//! What the differential runs and the recorder share: settings, random requests, and the form of recorded cases.

pub mod cases;
pub mod settings;
pub mod traffic;
