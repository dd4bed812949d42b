// Written by tools/plain_rust from crates/shape_glyphs. Do not edit.

//! The steps of shaping as a picture: a row of glyphs for each step that changed something.

use crate::buffer::{
    CharExt, GeneralCategoryExt, GlyphId, GlyphNames, GlyphPosition, hb_buffer_t, hb_glyph_info_t,
};
use crate::memory::{AllocError, String, Vec};

/// The colours of clusters.
const COLOURS: [&str; 8] = [
    "#8ecae6", "#ffd166", "#f4acb7", "#b7e4c7", "#cdb4db", "#fec89a", "#d6d6d6", "#a5e8dd",
];

/// Where the first glyph of a row stands.
const LEFT: usize = 130;

/// From one glyph of a row to the next.
const PITCH: usize = 96;

/// How wide the box of a glyph is.
const BOX: usize = 88;

/// From one row to the next.
const ROW: usize = 54;

/// How wide a picture is at least: as wide as the notes below its rows.
const LEAST_WIDTH: usize = 520;

/// The head of the file.
const STYLE: &str = "<style>.step{font:13px monospace;fill:#333}.glyph{font:bold 14px sans-serif;text-anchor:middle}.cluster{font:11px sans-serif;text-anchor:middle;fill:#333}.note{font:12px sans-serif;fill:#555}</style>";

/// The name of a row, which is that of a step of shaping.
#[derive(Clone, Copy, PartialEq, Eq, Debug)]
pub enum RowName {
    /// The items are characters yet.
    Characters,
    /// A step of this name.
    Step(&'static str),
    /// A lookup of this table, which has this index.
    Lookup(&'static str, u16),
}

impl RowName {
    /// Whether the row shows characters, and not glyphs.
    fn is_of_characters(self) -> bool {
        matches!(self, RowName::Characters)
    }
}

/// The glyphs after a step.
#[derive(Debug)]
struct Row {
    name: RowName,
    glyphs: Vec<hb_glyph_info_t>,
    positions: Vec<GlyphPosition>,
}

impl Row {
    /// What the buffer is after this step.
    fn of(name: RowName, buffer: &hb_buffer_t) -> Result<Self, AllocError> {
        Ok(Row {
            name,
            glyphs: Vec::from_slice(buffer.info())?,
            positions: positions_of(buffer)?,
        })
    }

    /// Whether a picture of both has the same boxes.
    fn looks_like(&self, other: &Row) -> bool {
        self.name.is_of_characters() == other.name.is_of_characters()
            && glyphs_look_alike(self.glyphs.as_slice(), other.glyphs.as_slice())
            && positions_look_alike(self.positions.as_slice(), other.positions.as_slice())
    }
}

/// The positions of a buffer; none where they are off.
fn positions_of(buffer: &hb_buffer_t) -> Result<Vec<GlyphPosition>, AllocError> {
    if buffer.have_positions() {
        Vec::from_slice(buffer.pos())
    } else {
        Ok(Vec::new())
    }
}

/// Whether the glyphs have the same numbers, clusters and flags.
fn glyphs_look_alike(glyphs: &[hb_glyph_info_t], others: &[hb_glyph_info_t]) -> bool {
    glyphs.len() == others.len()
        && glyphs.iter().zip(others).all(|(a, b)| {
            a.glyph_id == b.glyph_id
                && a.cluster == b.cluster
                && a.unsafe_to_break() == b.unsafe_to_break()
        })
}

/// Whether the glyphs move the pen and stand alike.
fn positions_look_alike(positions: &[GlyphPosition], others: &[GlyphPosition]) -> bool {
    positions.len() == others.len()
        && positions.iter().zip(others).all(|(a, b)| {
            a.x_advance == b.x_advance
                && a.y_advance == b.y_advance
                && a.x_offset == b.x_offset
                && a.y_offset == b.y_offset
        })
}

/// The steps of shaping, which it is told as the text is shaped.
#[derive(Debug)]
pub struct Picture {
    rows: Vec<Row>,
}

impl Picture {
    /// A picture with no row yet.
    ///
    /// # Proved
    ///
    /// That it returns.
    #[inline]
    pub fn new() -> Self {
        Picture { rows: Vec::new() }
    }

    /// Adds a row of this name with the items of a buffer, unless it is drawn as the last one is.
    ///
    /// # Errors
    ///
    /// `Err(AllocError)` where memory ran out.
    ///
    /// # Proved
    ///
    /// That it returns.
    #[inline]
    pub fn add(&mut self, name: RowName, buffer: &hb_buffer_t) -> Result<(), AllocError> {
        let row = Row::of(name, buffer)?;
        if let Some(last) = self.rows.as_slice().last() {
            if last.looks_like(&row) {
                return Ok(());
            }
        }
        self.rows.push(row)?;
        Ok(())
    }

    /// The picture as the text of an SVG file: a colour for each cluster, under each glyph its cluster and
    /// its advance, and a bar before each glyph that is unsafe to break before.
    ///
    /// # Errors
    ///
    /// `Err(AllocError)` where memory ran out.
    ///
    /// # Proved
    ///
    /// That it returns.
    #[inline]
    pub fn draw<N: GlyphNames>(&self, names: &N) -> Result<String, AllocError> {
        let mut svg = String::new();
        self.draw_into(&mut svg, names)?;
        Ok(svg)
    }

    /// Writes the picture.
    fn draw_into<N: GlyphNames>(&self, svg: &mut String, names: &N) -> Result<(), AllocError> {
        let most = self.rows.iter().map(|row| row.glyphs.len()).max();
        let width = left_of(most.unwrap_or(0)).max(LEAST_WIDTH);
        let notes = top_of(self.rows.len());
        let height = notes.saturating_add(50);
        writeln!(
            svg,
            "<svg xmlns=\"http://www.w3.org/2000/svg\" width=\"{width}\" height=\"{height}\" role=\"img\" aria-label=\"The glyphs of a text after each step of its shaping\">"
        )?;
        writeln!(svg, "  {STYLE}")?;
        writeln!(
            svg,
            "  <rect width=\"{width}\" height=\"{height}\" fill=\"#ffffff\"/>"
        )?;
        for (place, row) in self.rows.iter().enumerate() {
            self.draw_row(svg, names, row, top_of(place))?;
        }
        draw_notes(svg, notes)?;
        svg.push_str("</svg>\n")
    }

    /// Draws a row: the name of its step, and its glyphs.
    fn draw_row<N: GlyphNames>(
        &self,
        svg: &mut String,
        names: &N,
        row: &Row,
        y: usize,
    ) -> Result<(), AllocError> {
        let base = y.saturating_add(25);
        write!(svg, "  <text x=\"12\" y=\"{base}\" class=\"step\">")?;
        write_name(svg, row.name)?;
        svg.push_str("</text>\n")?;
        for (place, glyph) in row.glyphs.iter().enumerate() {
            let corner = (left_of(place), y);
            open_box(svg, self.colour_of(glyph), corner)?;
            if row.name.is_of_characters() {
                write_character(svg, glyph.glyph_id)?;
            } else {
                write_glyph(svg, names, glyph.glyph_id)?;
            }
            let position = row.positions.as_slice().get(place);
            close_box(svg, glyph, position, corner)?;
        }
        Ok(())
    }

    /// The colour of the glyph's cluster, which is that of the first character of the text in this cluster.
    fn colour_of(&self, glyph: &hb_glyph_info_t) -> &'static str {
        let Some(first) = self.rows.as_slice().first() else {
            return COLOURS[0];
        };
        let place = first
            .glyphs
            .iter()
            .position(|character| character.cluster == glyph.cluster)
            .unwrap_or(0);
        COLOURS[place % COLOURS.len()]
    }
}

/// Where the box of a glyph begins.
fn left_of(place: usize) -> usize {
    place.saturating_mul(PITCH).saturating_add(LEFT)
}

/// Where the boxes of a row begin.
fn top_of(row: usize) -> usize {
    row.saturating_mul(ROW).saturating_add(16)
}

/// Writes the name of a row.
fn write_name(svg: &mut String, name: RowName) -> Result<(), AllocError> {
    match name {
        RowName::Characters => svg.push_str("characters"),
        RowName::Step(step) => svg.push_str(step),
        RowName::Lookup(table, lookup) => write!(svg, "{table} {lookup}"),
    }
}

/// Draws the box of a glyph, and begins the text in it.
fn open_box(svg: &mut String, colour: &str, (x, y): (usize, usize)) -> Result<(), AllocError> {
    let (middle, upper) = (x.saturating_add(BOX / 2), y.saturating_add(20));
    writeln!(
        svg,
        "  <rect x=\"{x}\" y=\"{y}\" width=\"{BOX}\" height=\"40\" rx=\"6\" fill=\"{colour}\"/>"
    )?;
    write!(svg, "  <text x=\"{middle}\" y=\"{upper}\" class=\"glyph\">")
}

/// Ends the text of a glyph, and writes its cluster below, its advance where it has a position, and the
/// bar of its flag.
fn close_box(
    svg: &mut String,
    glyph: &hb_glyph_info_t,
    position: Option<&GlyphPosition>,
    (x, y): (usize, usize),
) -> Result<(), AllocError> {
    let (middle, lower) = (x.saturating_add(BOX / 2), y.saturating_add(35));
    let cluster = glyph.cluster;
    svg.push_str("</text>\n")?;
    write!(
        svg,
        "  <text x=\"{middle}\" y=\"{lower}\" class=\"cluster\">{cluster}"
    )?;
    if let Some(position) = position {
        write_position(svg, position)?;
    }
    svg.push_str("</text>\n")?;
    if glyph.unsafe_to_break() {
        draw_bar(svg, x.saturating_sub(6), y.saturating_sub(4), 48)?;
    }
    Ok(())
}

/// Writes a position as the text of shaped glyphs has it.
fn write_position(svg: &mut String, position: &GlyphPosition) -> Result<(), AllocError> {
    if position.x_offset != 0 || position.y_offset != 0 {
        write!(svg, " @{},{}", position.x_offset, position.y_offset)?;
    }
    write!(svg, " +{}", position.x_advance)?;
    if position.y_advance != 0 {
        write!(svg, ",{}", position.y_advance)?;
    }
    Ok(())
}

/// Writes a glyph's name, or its number where it has none.
fn write_glyph<N: GlyphNames>(svg: &mut String, names: &N, id: u32) -> Result<(), AllocError> {
    let name = match u16::try_from(id) {
        Ok(number) => names.glyph_name(GlyphId(number)),
        Err(_) => None,
    };
    match name {
        Some(name) => write_text(svg, name),
        None => write!(svg, "gid{id}"),
    }
}

/// Writes a text, with the signs that SVG keeps for itself written otherwise.
fn write_text(svg: &mut String, text: &str) -> Result<(), AllocError> {
    for character in text.chars() {
        write_sign(svg, character)?;
    }
    Ok(())
}

/// Writes a character of a text.
fn write_sign(svg: &mut String, character: char) -> Result<(), AllocError> {
    match character {
        '<' => svg.push_str("&lt;"),
        '&' => svg.push_str("&amp;"),
        _ => svg.push(character),
    }
}

/// Writes a character: a mark on a dotted circle, and one that is not seen as its number.
fn write_character(svg: &mut String, id: u32) -> Result<(), AllocError> {
    match char::from_u32(id) {
        Some(c) if c.is_control() || c.is_whitespace() || c.is_default_ignorable() => {
            write_number(svg, id)
        }
        Some(c) if c.general_category().is_mark() => write!(svg, "\u{25CC}{c}"),
        Some(c) => write_sign(svg, c),
        None => write_number(svg, id),
    }
}

/// Writes the number of a character.
fn write_number(svg: &mut String, id: u32) -> Result<(), AllocError> {
    write!(svg, "U+{id:04X}")
}

/// Draws the bar of a break flag.
fn draw_bar(svg: &mut String, x: usize, y: usize, height: usize) -> Result<(), AllocError> {
    writeln!(
        svg,
        "  <rect x=\"{x}\" y=\"{y}\" width=\"4\" height=\"{height}\" fill=\"#d00000\"/>"
    )
}

/// Says below the rows what the signs mean.
fn draw_notes(svg: &mut String, y: usize) -> Result<(), AllocError> {
    let second = y.saturating_add(22);
    draw_bar(svg, 17, y, 17)?;
    draw_note(svg, y, "unsafe to break before this glyph")?;
    let colour = COLOURS[0];
    writeln!(
        svg,
        "  <rect x=\"10\" y=\"{second}\" width=\"18\" height=\"17\" rx=\"4\" fill=\"{colour}\"/>"
    )?;
    draw_note(
        svg,
        second,
        "a colour for each cluster; below a glyph: its cluster, @offset and +advance",
    )
}

/// Says what one sign means.
fn draw_note(svg: &mut String, y: usize, note: &str) -> Result<(), AllocError> {
    let base = y.saturating_add(13);
    writeln!(
        svg,
        "  <text x=\"38\" y=\"{base}\" class=\"note\">{note}</text>"
    )
}
