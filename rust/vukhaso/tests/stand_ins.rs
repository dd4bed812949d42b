//! What stands in the place of std and of library crates, beside std itself.

use vukhaso::internals::numbers::{Round, nearest_i64_to_f32, saturating_f32_to_i32};
use vukhaso::memory::{BTreeMap, String, TryText, Vec};

/// Some numbers, by the generator xorshift64.
fn numbers(count: usize) -> impl Iterator<Item = u64> {
    let mut state = 0x9E37_79B9_7F4A_7C15u64;
    std::iter::repeat_with(move || {
        state ^= state << 13;
        state ^= state >> 7;
        state ^= state << 17;
        state
    })
    .take(count)
}

#[test]
fn numbers_are_rounded_as_std_rounds_them() {
    let odd = [
        0.0,
        -0.0,
        0.5,
        -0.5,
        1.5,
        2.5,
        0.499_999_97,
        -0.499_999_97,
        8_388_607.5,
        8_388_609.0,
        f32::MAX,
    ];
    let any = numbers(200_000).map(|bits| f32::from_bits(bits as u32));
    let near = numbers(200_000).map(|bits| (bits as i32 >> 12) as f32 / 64.0);
    for number in odd.into_iter().chain(any).chain(near) {
        for (ours, theirs) in [
            (Round::round(number), f32::round(number)),
            (Round::floor(number), f32::floor(number)),
            (Round::ceil(number), f32::ceil(number)),
        ] {
            assert!(
                ours.to_bits() == theirs.to_bits() || ours.is_nan() && theirs.is_nan(),
                "{number}"
            );
        }
    }
}

#[test]
fn numbers_are_converted_as_the_names_say() {
    assert_eq!(nearest_i64_to_f32(16_777_217), 16_777_216.0);
    assert_eq!(nearest_i64_to_f32(-3), -3.0);
    for (number, wanted) in [
        (1.9, 1),
        (-1.9, -1),
        (3e9, i32::MAX),
        (-3e9, i32::MIN),
        (f32::NAN, 0),
    ] {
        assert_eq!(saturating_f32_to_i32(number), wanted);
    }
}

#[test]
fn a_map_is_as_std_has_it() {
    let (mut ours, mut theirs) = (BTreeMap::new(), std::collections::BTreeMap::new());
    for number in numbers(2000) {
        let (key, value) = (number % 500, number >> 40);
        assert_eq!(ours.insert(key, value), Ok(theirs.insert(key, value)));
        assert_eq!(
            (ours.len(), ours.get(&(key / 2))),
            (theirs.len(), theirs.get(&(key / 2)))
        );
    }
    assert!(ours.into_iter().eq(theirs));
}

#[test]
fn vectors_and_texts_are_as_std_has_them() {
    let (mut ours, mut theirs) = (Vec::new(), vec![]);
    for number in numbers(3000) {
        match number % 5 {
            0..=2 => (assert_eq!(ours.push(number), Ok(())), theirs.push(number)).1,
            3 => {
                ours.truncate((number % 97) as usize);
                theirs.truncate((number % 97) as usize);
            }
            _ => {
                let more = [number; 3];
                assert_eq!(ours.extend_from_slice(&more), Ok(()));
                theirs.extend_from_slice(&more);
            }
        }
        assert_eq!(ours.as_slice(), theirs);
    }
    assert_eq!(ours.into_inner(), theirs);
    let text = "Zh-\u{c9}";
    assert_eq!(
        text.try_to_ascii_lowercase().unwrap(),
        text.to_ascii_lowercase().as_str()
    );
    assert_eq!(text.try_repeat(3).unwrap(), text.repeat(3).as_str());
    assert!(text.try_repeat(usize::MAX).is_err());
    assert_eq!(
        String::format(format_args!("{:>5}|{}", 7, 'x')).unwrap(),
        "    7|x"
    );
    assert!(Vec::<u64>::with_capacity(usize::MAX).is_err());
}
