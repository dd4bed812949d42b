use vukhaso::internals::buffer::{GlyphPosition, hb_glyph_info_t};
use vukhaso::internals::passes::line_ends;
use vukhaso::memory::{AllocError, Vec};

/// The cluster, the mask and the advance of each glyph, the widths of the lines, and where the lines end.
struct Case {
    glyphs: &'static [(u32, u32, i32)],
    widths: &'static [i64],
    ends: &'static [usize],
}

/// Five letters, each 100 wide.
const LETTERS: &[(u32, u32, i32)] = &[
    (0, 0, 100),
    (1, 0, 100),
    (2, 0, 100),
    (3, 0, 100),
    (4, 0, 100),
];

static BY_WIDTH: [Case; 8] = [
    Case {
        glyphs: &[],
        widths: &[100],
        ends: &[],
    },
    Case {
        glyphs: LETTERS,
        widths: &[500],
        ends: &[5],
    },
    Case {
        glyphs: LETTERS,
        widths: &[499],
        ends: &[4, 5],
    },
    Case {
        glyphs: LETTERS,
        widths: &[250],
        ends: &[2, 4, 5],
    },
    // the first line is indented
    Case {
        glyphs: LETTERS,
        widths: &[100, 250],
        ends: &[1, 3, 5],
    },
    Case {
        glyphs: LETTERS,
        widths: &[],
        ends: &[5],
    },
    // each line is too wide, and ends as soon as it may
    Case {
        glyphs: LETTERS,
        widths: &[0],
        ends: &[1, 2, 3, 4, 5],
    },
    // a mark has no width
    Case {
        glyphs: &[(0, 0, 100), (1, 0, 0), (2, 0, 100)],
        widths: &[100],
        ends: &[2, 3],
    },
];

static BY_FLAGS: [Case; 5] = [
    // it is unsafe to break before the third letter
    Case {
        glyphs: &[
            (0, 0, 100),
            (1, 0, 100),
            (2, 3, 100),
            (3, 0, 100),
            (4, 0, 100),
        ],
        widths: &[250],
        ends: &[1, 3, 5],
    },
    // and from right to left, before the second letter of the text from its end
    Case {
        glyphs: &[
            (4, 0, 100),
            (3, 3, 100),
            (2, 0, 100),
            (1, 0, 100),
            (0, 0, 100),
        ],
        widths: &[250],
        ends: &[1, 3, 5],
    },
    // the flag that it is unsafe to concatenate does not matter
    Case {
        glyphs: &[(0, 0, 100), (1, 2, 100)],
        widths: &[100],
        ends: &[1, 2],
    },
    // the first cluster is wider than the line
    Case {
        glyphs: &[
            (0, 0, 100),
            (0, 0, 100),
            (0, 0, 100),
            (1, 0, 100),
            (2, 0, 100),
        ],
        widths: &[150],
        ends: &[3, 4, 5],
    },
    // a cluster stands across the end of the line
    Case {
        glyphs: &[(0, 0, 100), (1, 0, 100), (1, 0, 100), (2, 0, 100)],
        widths: &[250],
        ends: &[1, 3, 4],
    },
];

/// The glyphs of a case.
fn glyphs_of(case: &Case) -> Result<Vec<hb_glyph_info_t>, AllocError> {
    let mut glyphs = Vec::new();
    for (cluster, mask, _) in case.glyphs {
        glyphs.push(hb_glyph_info_t {
            cluster: *cluster,
            mask: *mask,
            ..hb_glyph_info_t::default()
        })?;
    }
    Ok(glyphs)
}

/// Their positions.
fn positions_of(case: &Case) -> Result<Vec<GlyphPosition>, AllocError> {
    let mut positions = Vec::new();
    for (_, _, x_advance) in case.glyphs {
        positions.push(GlyphPosition {
            x_advance: *x_advance,
            ..GlyphPosition::default()
        })?;
    }
    Ok(positions)
}

/// Where lines end.
fn ends_of(
    glyphs: &[hb_glyph_info_t],
    positions: &[GlyphPosition],
    widths: &[i64],
) -> Result<Vec<usize>, AllocError> {
    assert_eq!(glyphs.len(), positions.len());
    line_ends(glyphs, positions, widths)
}

/// Whether the lines of a case end where they should.
fn ends_as_it_should(case: &Case) -> Result<bool, AllocError> {
    let glyphs = glyphs_of(case)?;
    let positions = positions_of(case)?;
    let ends = ends_of(&glyphs, &positions, case.widths)?;
    Ok(ends.as_slice() == case.ends)
}

/// Asserts where lines end.
fn assert_ends(cases: &[Case]) {
    for case in cases {
        assert_eq!(ends_as_it_should(case), Ok(true), "{:?}", case.ends);
    }
}

#[test]
fn lines_end_by_their_widths() {
    assert_ends(&BY_WIDTH);
}

#[test]
fn lines_end_where_the_text_may_be_cut() {
    assert_ends(&BY_FLAGS);
}

/// The law is a function with nothing to do.
#[test]
fn laws_may_be_cited() {}
