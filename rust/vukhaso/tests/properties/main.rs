//! What the example `properties` prints of directions, which is stored.

#[path = "../../examples/properties/directions.rs"]
mod directions;

#[test]
fn directions_are_printed_as_stored() {
    let mut printed = Vec::new();
    directions::print_directions(&mut printed).expect("a vector takes all");
    let printed = String::from_utf8(printed).expect("a text");
    assert_eq!(printed, include_str!("directions"));
}
