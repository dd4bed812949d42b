use vukhaso::internals::text::{Direction, script};

/// A text, the direction that it names, and what that is.
struct Row<'a> {
    text: &'a str,
    direction: Direction,
    is_horizontal: bool,
    is_forward: bool,
    reverse: Direction,
}

static DIRECTIONS: [Row<'static>; 5] = [
    Row {
        text: "",
        direction: Direction::Invalid,
        is_horizontal: false,
        is_forward: false,
        reverse: Direction::Invalid,
    },
    Row {
        text: "ltr",
        direction: Direction::LeftToRight,
        is_horizontal: true,
        is_forward: true,
        reverse: Direction::RightToLeft,
    },
    Row {
        text: "Rx",
        direction: Direction::RightToLeft,
        is_horizontal: true,
        is_forward: false,
        reverse: Direction::LeftToRight,
    },
    Row {
        text: "T",
        direction: Direction::TopToBottom,
        is_horizontal: false,
        is_forward: true,
        reverse: Direction::BottomToTop,
    },
    Row {
        text: "bottom",
        direction: Direction::BottomToTop,
        is_horizontal: false,
        is_forward: false,
        reverse: Direction::TopToBottom,
    },
];

#[test]
fn each_direction_has_its_line_and_its_opposite() {
    for row in &DIRECTIONS {
        let (text, direction) = (row.text, row.direction);
        let lines = [
            direction.is_horizontal(),
            !direction.is_vertical(),
            direction.is_forward(),
            !direction.is_backward(),
        ];
        let (is_horizontal, is_forward) = (row.is_horizontal, row.is_forward);
        assert!(
            lines == [is_horizontal, is_horizontal, is_forward, is_forward],
            "`{text}`"
        );
        let named = text.parse::<Direction>().unwrap_or_default();
        assert!(
            [named, direction.reverse()] == [direction, row.reverse],
            "`{text}`"
        );
    }
    assert!(Direction::default() == Direction::Invalid);
    assert!(" ltr".parse::<Direction>() == Err("invalid direction"));
}

#[test]
fn scripts_have_directions() {
    let found = [
        script::OLD_UYGHUR,
        script::RUNIC,
        script::LATIN,
        script::GARAY,
    ]
    .map(Direction::from_script);
    let to_right = Some(Direction::LeftToRight);
    assert!(found == [Some(Direction::RightToLeft), None, to_right, to_right]);
}
