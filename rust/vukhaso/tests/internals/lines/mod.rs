//! Tests of lines that are read and of what is answered to them.

mod normalized;
mod reading;
mod texts;
