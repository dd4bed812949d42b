//! Tests of `ot_map`, over a small table `GSUB` that is made by hand after the OpenType specification. Its list of scripts has
//! `DFLT` and `latn`, its list of features `liga`, `locl`, `frac` and `smcp`, and it declares three lookups.

mod features;
mod masks;
mod scripts;

/// The table.
///
/// `DFLT` has the default language system with `liga`. `latn` has a default one with `frac`, `liga`, `smcp` and `liga` once more, and
/// one of `TRK ` that requires `locl` and lists `smcp`. `liga` has the lookup 1, `locl` 2 and 9, `frac` 2, `smcp` 0 and 1.
pub(crate) const TABLE: &[u8] = &[
    0, 1, 0, 0, 0, 10, 0, 68, 0, 122, 0, 2, 68, 70, 76, 84, 0, 14, 108, 97, 116, 110, 0, 26, 0, 4,
    0, 0, 0, 0, 255, 255, 0, 1, 0, 0, 0, 10, 0, 1, 84, 82, 75, 32, 0, 24, 0, 0, 255, 255, 0, 4, 0,
    2, 0, 0, 0, 3, 0, 0, 0, 0, 0, 1, 0, 1, 0, 3, 0, 4, 108, 105, 103, 97, 0, 26, 108, 111, 99, 108,
    0, 32, 102, 114, 97, 99, 0, 40, 115, 109, 99, 112, 0, 46, 0, 0, 0, 1, 0, 1, 0, 0, 0, 2, 0, 2,
    0, 9, 0, 0, 0, 1, 0, 2, 0, 0, 0, 2, 0, 0, 0, 1, 0, 3, 0, 8, 0, 8, 0, 8,
];
