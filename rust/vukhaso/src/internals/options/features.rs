// Written by tools/plain_rust from crates/shape_options. Do not edit.

//! Lists of features, as in `-liga,+kern[3:5],aalt=2`.

use crate::buffer::Feature;
use crate::memory::{AllocError, TryIterator, Vec};

/// The features of a list, which commas and spaces part, in their order. What reads as no feature is
/// left out, as in HarfBuzz's `hb-shape --features`.
///
/// # Errors
///
/// `Err(AllocError)` where memory ran out.
///
/// # Proved
///
/// ```text
/// ensures { IfOk result (λ features. Reads (texts_in list.now) features.items) }
/// ```
#[inline]
pub fn features(list: &str) -> Result<Vec<Feature>, AllocError> {
    let mut features = Vec::new();
    let parts = parts_at_commas(list)?;
    for part in parts.as_slice() {
        push_features(&mut features, part)?;
    }
    Ok(features)
}

/// Adds the features that spaces part.
fn push_features(features: &mut Vec<Feature>, list: &str) -> Result<(), AllocError> {
    let texts = parts_at_spaces(list)?;
    for text in texts.as_slice() {
        push_feature(features, text)?;
    }
    Ok(())
}

/// Adds the feature that a text reads as, if it reads as one.
fn push_feature(features: &mut Vec<Feature>, text: &str) -> Result<(), AllocError> {
    if let Ok(feature) = text.parse::<Feature>() {
        features.push(feature)?;
    }
    Ok(())
}

fn parts_at_commas<'a>(text: &'a str) -> Result<Vec<&'a str>, AllocError> {
    text.split(',').try_into_vec()
}

fn parts_at_spaces<'a>(text: &'a str) -> Result<Vec<&'a str>, AllocError> {
    text.split(' ').try_into_vec()
}

/// A text without the two equal quotes around it, if it has them.
pub(crate) fn unquoted(text: &str) -> &str {
    for quote in ["\"", "'"] {
        if let Some(inner) = text
            .strip_prefix(quote)
            .and_then(|rest| rest.strip_suffix(quote))
        {
            return inner;
        }
    }
    text
}
