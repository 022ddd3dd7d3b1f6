//! The command `tone`, end to end: what it prints, its exit status and the
//! files that it leaves, beside the library's own calls.

#[macro_use]
mod bench;
mod build;
mod check;
mod examples;
mod files;
mod hum;
#[cfg(unix)]
mod links;
mod moved;
#[allow(dead_code)] // the command's tests link no archive by its path
#[path = "../places/mod.rs"]
mod places;
mod play;
mod report;
mod sheet;
mod usage;
