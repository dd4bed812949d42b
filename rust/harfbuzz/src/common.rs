//! `hb-common.h`: tags, directions, languages, scripts, features and variations.

pub mod features;
pub mod languages;
pub mod scripts;
pub mod tags;
pub mod variations;
pub mod versions;
