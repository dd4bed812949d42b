//! `hb-ot.h`: what tables of OpenType say.

mod chosen_languages;
pub mod color;
pub mod layout;
mod math;
mod meta;
pub mod metrics;
pub mod name;
pub mod tags;
pub mod var;
