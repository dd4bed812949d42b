//! Tests of `shaping_passes`, over what it makes public.

mod fonts;
mod lines;
mod mark_order;
mod normalization;
mod rules;
mod runs;
mod texts;
mod turns;
mod visible;
