//! Tests of `ot_shape` and of the crates that it was parted from, over small fonts: what
//! rows of shaping (`rows/shaping`) cannot say. What is expected comes from HarfBuzz's `hb-shape` over the same fonts.

mod face;
mod given_up;
mod normalization;
mod plans;
mod upright;
mod verification;
