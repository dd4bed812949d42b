// Written by tools/plain_rust from crates/script_universal. Do not edit.

//! The scripts that the universal shaper serves (OpenType, "Creating and supporting OpenType fonts for the Universal Shaping Engine").

use crate::common::{Script, Tag};

/// The ISO 15924 tags of the scripts, in their order.
static SCRIPTS: [&[u8; 4]; 84] = [
    b"Adlm", b"Ahom", b"Bali", b"Batk", b"Bhks", b"Brah", b"Bugi", b"Buhd", b"Cakm", b"Cham",
    b"Chrs", b"Cpmn", b"Diak", b"Dogr", b"Dupl", b"Egyp", b"Elym", b"Gara", b"Gong", b"Gonm",
    b"Gran", b"Gukh", b"Hano", b"Hmng", b"Hmnp", b"Java", b"Kali", b"Kawi", b"Khar", b"Khoj",
    b"Kits", b"Krai", b"Kthi", b"Lana", b"Lepc", b"Limb", b"Mahj", b"Maka", b"Mand", b"Mani",
    b"Marc", b"Medf", b"Modi", b"Mong", b"Mtei", b"Mult", b"Nagm", b"Nand", b"Newa", b"Nkoo",
    b"Onao", b"Ougr", b"Phag", b"Phlp", b"Plrd", b"Rjng", b"Rohg", b"Saur", b"Shrd", b"Sidd",
    b"Sind", b"Sinh", b"Sogd", b"Sogo", b"Soyo", b"Sund", b"Sunu", b"Sylo", b"Tagb", b"Takr",
    b"Tale", b"Tavt", b"Tfng", b"Tglg", b"Tibt", b"Tirh", b"Tnsa", b"Todr", b"Toto", b"Tutg",
    b"Vith", b"Wcho", b"Yezi", b"Zanb",
];

/// Those of the scripts among them whose letters join.
static JOINING_SCRIPTS: [&[u8; 4]; 11] = [
    b"Adlm", b"Chrs", b"Rohg", b"Mand", b"Mani", b"Mong", b"Nkoo", b"Ougr", b"Phag", b"Phlp",
    b"Sogd",
];

/// Whether the universal shaper serves a script.
///
/// # Proved
///
/// ```text
/// ensures { result ≡ is_listed universal_scripts script }
/// ```
#[inline]
pub fn is_universal(script: Script) -> bool {
    is_one_of(&SCRIPTS, script)
}

/// Whether the letters of a script join, as those of Arabic do.
///
/// # Proved
///
/// ```text
/// ensures { result ≡ is_listed joining_scripts script }
/// ```
#[inline]
pub fn joins(script: Script) -> bool {
    is_one_of(&JOINING_SCRIPTS, script)
}

/// Whether the tag of a script is one of these.
fn is_one_of(names: &[&[u8; 4]], script: Script) -> bool {
    names
        .iter()
        .any(|name| Tag::from_bytes(name).0 == script.tag().0)
}
