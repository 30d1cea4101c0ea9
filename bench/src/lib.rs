//! The proved library's functions, and in plain Rust what the proved programs do over whole lists of calls.

pub mod console;
pub mod ours;
pub mod service;
pub mod slots;
