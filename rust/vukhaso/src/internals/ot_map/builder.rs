// Written by tools/plain_rust from crates/ot_map. Do not edit.

//! The features of a text, collected: HarfBuzz's `hb_ot_map_builder_t`.

use crate::common::Tag;
use crate::font_tables::bytes::u16_at;
use crate::memory::{AllocError, Vec};
use crate::ot_map::allocation::{global_mask, planned_features};
use crate::ot_map::choice::{
    ChosenScript, feature_count, required_feature, select_language, select_script,
};
use crate::ot_map::plan::{LayoutPlan, Pause};
use crate::ot_map::request::{FeatureFlags, FeatureRequest};
use crate::ot_map::stage_lookups::{gpos_lookups, gsub_lookups};
use crate::ot_map::tables::LayoutTable;

/// One of the tables `GSUB` and `GPOS`, with what is chosen of it for a text.
#[derive(Clone, Copy, Debug)]
pub struct ChosenTable<'a> {
    /// The lists of the table.
    pub lists: LayoutTable<'a>,
    /// The script.
    pub script: ChosenScript<'a>,
    /// The language system; empty where there is none.
    pub system: &'a [u8],
}

impl<'a> ChosenTable<'a> {
    /// What is chosen of a table for a text with these script tags and these language tags, the best first.
    ///
    /// # Proved
    ///
    /// ```text
    /// ensures scripts { result.lists.scripts.now ≡ list_of table.now 4 }
    /// ensures features { result.lists.features.now ≡ list_of table.now 6 }
    /// ensures lookups { result.lists.lookup_count ≡ lookup_count table.now }
    /// ensures substitutions { result.lists.substitutions.now ≡ [] }
    /// ensures script { (result.script.tag.0, result.script.table.now)
    ///     ≡ script_of (list_of table.now 4) (map (λ tag. tag.0) scripts.now) }
    /// ensures system { result.system.now
    ///     ≡ system_of result.script.table.now (map (λ tag. tag.0) languages.now) }
    /// ```
    #[inline]
    pub fn new(table: &'a [u8], scripts: &[Tag], languages: &[Tag]) -> Self {
        let lists = LayoutTable::new(table);
        let script = select_script(lists.scripts, scripts);
        ChosenTable {
            lists,
            script,
            system: select_language(script.table, languages),
        }
    }

    /// The same, where these feature tables stand in the place of others: a FeatureTableSubstitution table,
    /// or an empty one.
    ///
    /// # Proved
    ///
    /// ```text
    /// ensures { result ≡ record self.entry { lists = record self.entry.lists { substitutions = substitutions.entry } } }
    /// ```
    #[inline]
    pub fn with_substitutions(self, substitutions: &'a [u8]) -> Self {
        let ChosenTable {
            lists,
            script,
            system,
        } = self;
        let LayoutTable {
            scripts,
            features,
            lookup_count,
            ..
        } = lists;
        ChosenTable {
            lists: LayoutTable {
                scripts,
                features,
                lookup_count,
                substitutions,
            },
            script,
            system,
        }
    }

    /// Whether the language system has a feature with this tag.
    ///
    /// # Proved
    ///
    /// ```text
    /// ensures { result ≡ lists_feature self.now.lists.features.now self.now.system.now tag.0 }
    /// ```
    #[inline]
    pub fn has_feature(&self, tag: Tag) -> bool {
        for place in 0..feature_count(self.system) {
            if self.has_feature_at(place, tag) {
                return true;
            }
        }
        false
    }

    /// Whether the feature that the language system lists in a place has this tag.
    ///
    /// # Requires
    ///
    /// - `place < 65536`
    fn has_feature_at(&self, place: usize, tag: Tag) -> bool {
        debug_assert!(place < 65536);
        match u16_at(self.system, 6 + 2 * place) {
            Some(index) => match self.lists.feature_tag(index) {
                Some(found) => found.0 == tag.0,
                None => false,
            },
            None => false,
        }
    }
}

/// The features of a text, and the pauses between them.
#[derive(Debug)]
pub struct PlanBuilder<'a> {
    /// What is chosen of the table `GSUB`.
    pub gsub: ChosenTable<'a>,
    /// What is chosen of the table `GPOS`.
    pub gpos: ChosenTable<'a>,
    /// The features that are asked for, each tag once, in the order of their tags.
    pub requests: Vec<FeatureRequest>,
    /// What is done after each stage of substitution but the last.
    pub pauses: Vec<Pause>,
}

impl<'a> PlanBuilder<'a> {
    /// No features yet.
    ///
    /// # Proved
    ///
    /// ```text
    /// ensures tables { (result.gsub ≡ gsub.entry) × (result.gpos ≡ gpos.entry) }
    /// ensures empty { (result.requests.items ≡ []) × (result.pauses.items ≡ []) }
    /// ```
    #[inline]
    pub fn new(gsub: ChosenTable<'a>, gpos: ChosenTable<'a>) -> Self {
        PlanBuilder {
            gsub,
            gpos,
            requests: Vec::new(),
            pauses: Vec::new(),
        }
    }

    /// Whether one of the tables has a feature with this tag.
    ///
    /// # Proved
    ///
    /// ```text
    /// ensures { result ≡ lists_feature self.now.gsub.lists.features.now self.now.gsub.system.now tag.0
    ///     || lists_feature self.now.gpos.lists.features.now self.now.gpos.system.now tag.0 }
    /// ```
    #[inline]
    pub fn has_feature(&self, tag: Tag) -> bool {
        self.gsub.has_feature(tag) || self.gpos.has_feature(tag)
    }

    /// Asks for a feature with a value. What was asked of the tag before is taken in; the null tag is
    /// passed over.
    ///
    /// # Errors
    ///
    /// `Err(AllocError)` where memory ran out.
    ///
    /// # Proved
    ///
    /// ```text
    /// ensures pauses { HasSamePauses self.old self.new }
    /// ensures null { tag.0 ≡ 0 → self.new.requests.items ≡ self.old.requests.items }
    /// ensures asked { tag.0 ≢ 0 → AreInOrder self.old.requests.items → IfOk result (λ _. self.new.requests.items
    ///     ≡ with_request (requested tag flags value (vec_len self.old.pauses)) self.old.requests.items) }
    /// ensures refused { IfErr result (λ _. self.new.requests.items ≡ self.old.requests.items) }
    /// ```
    #[inline]
    pub fn add_feature(
        &mut self,
        tag: Tag,
        flags: FeatureFlags,
        value: u32,
    ) -> Result<(), AllocError> {
        if tag.is_null() {
            return Ok(());
        }
        let request = FeatureRequest::new(tag, flags, value, self.pauses.len());
        match place_of(self.requests.as_slice(), tag) {
            Ok(place) => {
                let before = &mut self.requests[place];
                before.merge(&request);
            }
            Err(place) => self.requests.insert(place, request)?,
        }
        Ok(())
    }

    /// Asks for a feature of every glyph, with the value 1.
    ///
    /// # Errors
    ///
    /// `Err(AllocError)` where memory ran out.
    ///
    /// # Proved
    ///
    /// ```text
    /// ensures pauses { HasSamePauses self.old self.new }
    /// ensures null { tag.0 ≡ 0 → self.new.requests.items ≡ self.old.requests.items }
    /// ensures asked { tag.0 ≢ 0 → AreInOrder self.old.requests.items → IfOk result (λ _. self.new.requests.items
    ///     ≡ with_request (requested tag (record flags { is_global = true }) 1 (vec_len self.old.pauses))
    ///     self.old.requests.items) }
    /// ensures refused { IfErr result (λ _. self.new.requests.items ≡ self.old.requests.items) }
    /// ```
    #[inline]
    pub fn enable_feature(&mut self, tag: Tag, flags: FeatureFlags) -> Result<(), AllocError> {
        let flags = FeatureFlags {
            is_global: true,
            ..flags
        };
        self.add_feature(tag, flags, 1)
    }

    /// Turns a feature off for every glyph.
    ///
    /// # Errors
    ///
    /// `Err(AllocError)` where memory ran out.
    ///
    /// # Proved
    ///
    /// ```text
    /// ensures pauses { HasSamePauses self.old self.new }
    /// ensures null { tag.0 ≡ 0 → self.new.requests.items ≡ self.old.requests.items }
    /// ensures asked { tag.0 ≢ 0 → AreInOrder self.old.requests.items → IfOk result (λ _. self.new.requests.items
    ///     ≡ with_request (requested tag every_glyph 0 (vec_len self.old.pauses)) self.old.requests.items) }
    /// ensures refused { IfErr result (λ _. self.new.requests.items ≡ self.old.requests.items) }
    /// ```
    #[inline]
    pub fn disable_feature(&mut self, tag: Tag) -> Result<(), AllocError> {
        self.add_feature(tag, FeatureFlags::GLOBAL, 0)
    }

    /// Ends a stage of substitution: lookups of features that are asked for from here on are applied after
    /// those of the features before, and after the pause.
    ///
    /// # Errors
    ///
    /// `Err(AllocError)` where memory ran out.
    ///
    /// # Proved
    ///
    /// ```text
    /// ensures pauses { IfOk result (λ _. self.new.pauses.items ≡ self.old.pauses.items ++ (pause ∷ [])) }
    /// ensures requests { self.new.requests ≡ self.old.requests }
    /// ensures tables { (self.new.gsub ≡ self.old.gsub) × (self.new.gpos ≡ self.old.gpos) }
    /// ```
    #[inline]
    pub fn add_gsub_pause(&mut self, pause: Pause) -> Result<(), AllocError> {
        self.pauses.push(pause)?;
        Ok(())
    }

    /// The plan: which lookups are applied in which order, and to which glyphs.
    ///
    /// # Errors
    ///
    /// `Err(AllocError)` where memory ran out.
    ///
    /// # Proved
    ///
    /// ```text
    /// ensures is { IfOk result IsPlan }
    /// ensures compiled { AreInOrder self.entry.requests.items → IfOk result (IsCompiled self.entry) }
    /// ```
    pub fn compile(self) -> Result<LayoutPlan, AllocError> {
        let PlanBuilder {
            gsub,
            gpos,
            mut requests,
            mut pauses,
        } = self;
        pauses.push(Pause::Nothing)?;
        let required_stage = required_stage(&gsub, requests.as_slice());
        find_features(&gsub, &gpos, requests.as_mut_slice());
        let features = planned_features(requests.as_slice())?;
        let (gsub_lookups, stages) = gsub_lookups(
            &gsub,
            required_stage,
            features.as_slice(),
            pauses.as_slice(),
        )?;
        let gpos_lookups = gpos_lookups(&gpos, features.as_slice())?;
        Ok(LayoutPlan {
            global_mask: global_mask(features.as_slice()),
            gsub_script: gsub.script.tag,
            gpos_script: gpos.script.tag,
            features,
            gsub_lookups,
            stages,
            gpos_lookups,
        })
    }
}

/// The place of the request of a tag, or where it belongs.
fn place_of(requests: &[FeatureRequest], tag: Tag) -> Result<usize, usize> {
    requests.binary_search_by_key(&tag.0, |request| request.tag.0)
}

/// Finds the features of both tables that have the tags of the requests.
fn find_features(gsub: &ChosenTable, gpos: &ChosenTable, requests: &mut [FeatureRequest]) {
    find_in_system(gsub, true, requests);
    find_in_system(gpos, false, requests);
    search_lists(gsub, gpos, requests);
}

/// Finds the features that the language system of one of the tables lists.
fn find_in_system(table: &ChosenTable, is_gsub: bool, requests: &mut [FeatureRequest]) {
    for place in 0..feature_count(table.system) {
        note(table, is_gsub, place, requests);
    }
}

/// Notes the feature in a place of a language system at the request of its tag, unless one was found
/// before.
///
/// # Requires
///
/// - `place < 65536`
fn note(table: &ChosenTable, is_gsub: bool, place: usize, requests: &mut [FeatureRequest]) {
    debug_assert!(place < 65536);
    let Some(index) = u16_at(table.system, 6 + 2 * place) else {
        return;
    };
    let Some(tag) = table.lists.feature_tag(index) else {
        return;
    };
    match place_of(requests, tag) {
        Ok(at) => requests[at].note(is_gsub, index),
        Err(_) => {}
    }
}

/// Searches the lists of both tables for the features that have to be and were not found.
fn search_lists(gsub: &ChosenTable, gpos: &ChosenTable, requests: &mut [FeatureRequest]) {
    for request in requests.iter_mut() {
        search(gsub, gpos, request);
    }
}

/// Searches for a feature, if it has to be and was not found.
fn search(gsub: &ChosenTable, gpos: &ChosenTable, request: &mut FeatureRequest) {
    if request.flags.global_search && !request.is_found() {
        request.gsub = gsub.lists.first_feature(request.tag);
        request.gpos = gpos.lists.first_feature(request.tag);
    }
}

/// The stage in which the feature that `GSUB` requires is applied: that of its tag, if it was asked
/// for, or else the first.
fn required_stage(gsub: &ChosenTable, requests: &[FeatureRequest]) -> usize {
    let Some(index) = required_feature(gsub.system) else {
        return 0;
    };
    let Some(tag) = gsub.lists.feature_tag(index) else {
        return 0;
    };
    stage_of(requests, tag)
}

/// The stage of the request of a tag, if it is not turned off, or else the first.
fn stage_of(requests: &[FeatureRequest], tag: Tag) -> usize {
    match place_of(requests, tag) {
        Ok(place) => stage_asked(&requests[place]),
        Err(_) => 0,
    }
}

/// The stage of a request that is not turned off, or else the first.
fn stage_asked(request: &FeatureRequest) -> usize {
    if request.max_value != 0 {
        return request.stage;
    }
    0
}
