// Written by tools/plain_rust from crates/script_joining. Do not edit.

//! Scripts whose letters join (the Unicode Standard, section 9.2): how a letter joins its neighbours, and Arabic and Syriac with
//! their features, marks and stretched signs, as HarfBuzz's `hb-ot-shaper-arabic.cc` has them.

pub use arabic::fallback::FallbackLookups;
pub use joining::form::ArabicAction;
pub use joining::kind::{JoiningType, joining_type};

pub mod arabic;
pub mod joining;
