//! The drone's mission service, written a second time from its rules, and the
//! programs that compare it with another implementation by call scripts.

pub mod compare;
pub mod fault;
pub mod fence;
pub mod generate;
pub mod home;
pub mod items;
pub mod layout;
pub mod letter;
pub mod limits;
pub mod moved;
pub mod moves;
pub mod partial;
pub mod player;
pub mod random;
pub mod script;
pub mod search;
pub mod service;
pub mod speed;
pub mod state;
pub mod store;
pub mod story;
pub mod table;
pub mod vectors;
