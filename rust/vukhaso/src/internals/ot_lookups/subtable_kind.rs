// Written by tools/plain_rust from crates/ot_lookups. Do not edit.

//! The kinds of subtables, by the type of their lookup and their format (OpenType specification, "GSUB - Glyph Substitution Table",
//! "GPOS - Glyph Positioning Table").

/// What a subtable does with the glyphs that it is for.
#[derive(Clone, Copy, PartialEq, Eq, Debug)]
pub enum SubtableKind {
    /// A glyph becomes another one.
    SingleSubstitution(SingleFormat),
    /// A glyph becomes several, or none.
    MultipleSubstitution,
    /// A glyph becomes one of its alternates.
    AlternateSubstitution,
    /// Glyphs become one.
    LigatureSubstitution,
    /// A glyph between others becomes another one, from the end of the text on.
    ReverseSubstitution,
    /// Lookups are applied to a sequence of glyphs.
    Context(ContextFormat),
    /// Lookups are applied to a sequence of glyphs between others.
    ChainedContext(ContextFormat),
    /// A glyph is moved.
    SingleAdjustment,
    /// A glyph and the next one are moved.
    PairAdjustment(PairFormat),
    /// A glyph is joined to the next one.
    CursiveAttachment,
    /// A mark is attached to a base.
    MarkToBase,
    /// A mark is attached to a component of a ligature.
    MarkToLigature,
    /// A mark is attached to another mark.
    MarkToMark,
}

/// How a single substitution says which glyph comes.
#[derive(Clone, Copy, PartialEq, Eq, Debug)]
pub enum SingleFormat {
    /// By a number that is added (format 1).
    Delta,
    /// By a list of glyphs (format 2).
    Glyphs,
}

/// How a context names the glyphs of its rules.
#[derive(Clone, Copy, PartialEq, Eq, Debug)]
pub enum ContextFormat {
    /// One by one (format 1).
    Glyphs,
    /// By their classes (format 2).
    Classes,
    /// By coverages (format 3): it has one rule.
    Coverages,
}

/// How pairs name their glyphs.
#[derive(Clone, Copy, PartialEq, Eq, Debug)]
pub enum PairFormat {
    /// One by one (format 1).
    Glyphs,
    /// By their classes (format 2).
    Classes,
}

impl SubtableKind {
    /// The format of a context, chained or not; `None` of another kind.
    ///
    /// # Proved
    ///
    /// ```text
    /// ensures { result ≡ kinds.as_context self }
    /// ```
    #[inline(always)]
    pub fn as_context(self) -> Option<ContextFormat> {
        match self {
            SubtableKind::Context(format) | SubtableKind::ChainedContext(format) => Some(format),
            _ => None,
        }
    }

    /// Whether it is a chained context.
    ///
    /// # Proved
    ///
    /// ```text
    /// ensures { result ≡ kinds.is_chained self }
    /// ```
    #[inline(always)]
    pub fn is_chained(self) -> bool {
        matches!(self, SubtableKind::ChainedContext(_))
    }

    /// Whether marks are attached.
    pub(crate) fn attaches_marks(self) -> bool {
        matches!(
            self,
            SubtableKind::MarkToBase | SubtableKind::MarkToLigature | SubtableKind::MarkToMark
        )
    }
}

/// The kind of a subtable of `GPOS` or of `GSUB`; `None` where its type has no such format.
pub(crate) fn kind_of(is_positioning: bool, lookup_type: u16, format: u16) -> Option<SubtableKind> {
    if is_positioning {
        positioning_kind(lookup_type, format)
    } else {
        substitution_kind(lookup_type, format)
    }
}

/// The kind of a subtable of `GSUB`. An extension is read through, and is of no kind.
///
/// # Proved
///
/// ```text
/// ensures { result ≡ kinds.substitution_kind lookup_type format }
/// ```
#[inline]
pub fn substitution_kind(lookup_type: u16, format: u16) -> Option<SubtableKind> {
    match lookup_type {
        1 => Some(SubtableKind::SingleSubstitution(single_format(format)?)),
        2 if format == 1 => Some(SubtableKind::MultipleSubstitution),
        3 if format == 1 => Some(SubtableKind::AlternateSubstitution),
        4 if format == 1 => Some(SubtableKind::LigatureSubstitution),
        5 => Some(SubtableKind::Context(context_format(format)?)),
        6 => Some(SubtableKind::ChainedContext(context_format(format)?)),
        8 if format == 1 => Some(SubtableKind::ReverseSubstitution),
        _ => None,
    }
}

/// The kind of a subtable of `GPOS`.
///
/// # Proved
///
/// ```text
/// ensures { result ≡ kinds.positioning_kind lookup_type format }
/// ```
#[inline]
pub fn positioning_kind(lookup_type: u16, format: u16) -> Option<SubtableKind> {
    match lookup_type {
        1 if format == 1 || format == 2 => Some(SubtableKind::SingleAdjustment),
        2 => Some(SubtableKind::PairAdjustment(pair_format(format)?)),
        3 if format == 1 => Some(SubtableKind::CursiveAttachment),
        4 if format == 1 => Some(SubtableKind::MarkToBase),
        5 if format == 1 => Some(SubtableKind::MarkToLigature),
        6 if format == 1 => Some(SubtableKind::MarkToMark),
        7 => Some(SubtableKind::Context(context_format(format)?)),
        8 => Some(SubtableKind::ChainedContext(context_format(format)?)),
        _ => None,
    }
}

/// The format of a single substitution.
fn single_format(format: u16) -> Option<SingleFormat> {
    match format {
        1 => Some(SingleFormat::Delta),
        2 => Some(SingleFormat::Glyphs),
        _ => None,
    }
}

/// The format of a context.
fn context_format(format: u16) -> Option<ContextFormat> {
    match format {
        1 => Some(ContextFormat::Glyphs),
        2 => Some(ContextFormat::Classes),
        3 => Some(ContextFormat::Coverages),
        _ => None,
    }
}

/// The format of pairs.
fn pair_format(format: u16) -> Option<PairFormat> {
    match format {
        1 => Some(PairFormat::Glyphs),
        2 => Some(PairFormat::Classes),
        _ => None,
    }
}

/// Where a subtable has the offset of the classes of its input; `None` where its kind has none.
pub(crate) fn input_classes_at(kind: SubtableKind) -> Option<usize> {
    match kind {
        SubtableKind::Context(ContextFormat::Classes) => Some(4),
        SubtableKind::ChainedContext(ContextFormat::Classes) => Some(6),
        SubtableKind::PairAdjustment(PairFormat::Classes) => Some(8),
        _ => None,
    }
}
