//! Tests of the command line of `vukhaso_shape`: what it asks for, and the lists that its values hold.

mod texts;
mod words;
