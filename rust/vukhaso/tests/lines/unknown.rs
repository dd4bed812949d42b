//! Lines that are no command.
use crate::shaping_session::run::run;

/// Lines that are no commands; the last is empty.
const UNKNOWN: &[u8] = b"\
\x20\n\
\x20sync\n\
sync \n\
sync 1\n\
sync\r\n\
Sync\n\
push\n\
push \xFF\n\
push \xED\xA0\x80\n\
replace_glyph\n\
replace_glyph  7\n\
replace_glyph 7 8\n\
replace_glyph +7\n\
replace_glyph a\n\
replace_glyph 4294967296\n\
merge_clusters 0\n\
merge_grapheme_clusters 0\n\
merge_clusters 0 18446744073709551616\n\
level 4\n\
flags 256\n\
serialize 64\n\
limit\n\
limit 18446744073709551616\n\
next_glyphs\n\
next_glyphs 18446744073709551616\n\
move_to -1\n\
copy_glyph 1\n\
replace_glyphs\n\
replace_glyphs 1\n\
replace_glyphs 1 0 \n\
replace_glyphs 1 0 7\n\
replace_glyphs 1 2 7\n\
replace_glyphs 1 2 7 a\n\
replace_glyphs 1 2 7  8\n\
replace_glyphs 1 2 7 8 9\n\
replace_glyphs 1 1 4294967296\n\
replace_glyphs 1 18446744073709551615 7 8\n\
replace_glyphs 18446744073709551616 0\n\
add 61\n\
decompose +61\n\
decompose d800\n\
decompose 110000\n\
decompose 100000061\n\
tags\n\
tags -\n\
tags Beng \n\
tags  Beng -\n\
tags \0\0\0\0 en\n\
tags Beng ml x\n\
";

#[test]
fn an_unknown_command_ends_the_run_with_status_2() {
    for line in UNKNOWN.split(|b| *b == b'\n') {
        let mut lines = Vec::new();
        lines.extend_from_slice(b"push a\n");
        lines.extend_from_slice(line);
        lines.extend_from_slice(b"\npush b\n");
        let mut written = Vec::new();
        let outcome = run(lines.as_slice(), &mut written);
        assert!(outcome == Ok(2), "at {line:?}");
        assert!(
            written.as_slice() == b"true\nunknown command\n".as_slice(),
            "at {line:?}"
        );
    }
}
