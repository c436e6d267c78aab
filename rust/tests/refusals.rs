//! Every number has a name and a sentence with its cure.

use lohandema::{Asked, Bounds, Reason, Refusal, Tree, Wall};

const NAMED: [(u64, &str); 20] = [
    (Refusal::DIMS, "DIMS"),
    (Refusal::BOX, "BOX"),
    (Refusal::SHAPE, "SHAPE"),
    (Refusal::COUNT, "COUNT"),
    (Refusal::ORDER, "ORDER"),
    (Refusal::SOURCE, "SOURCE"),
    (Refusal::POINT, "POINT"),
    (Refusal::ROOM, "ROOM"),
    (Refusal::KEY, "KEY"),
    (Refusal::ROOT, "ROOT"),
    (Refusal::DEEP, "DEEP"),
    (Refusal::UNSTORED, "UNSTORED"),
    (Refusal::TREE, "TREE"),
    (Refusal::NOTLEAF, "NOTLEAF"),
    (Refusal::FILE, "FILE"),
    (Refusal::GRID, "GRID"),
    (Refusal::SECTION, "SECTION"),
    (Refusal::NOTBUILT, "NOTBUILT"),
    (Refusal::PARTIAL, "PARTIAL"),
    (Refusal::READING, "READING"),
];

/// What stands before the number, as cause and cure.
fn sentence(refusal: Refusal) -> (String, String) {
    let end = format!(" (refused {} {})", refusal.number, refusal.name());
    let text = refusal.to_string();
    let sentence = text.strip_suffix(&end).expect("the number at the end");
    let (cause, cure) = sentence.split_once(": ").expect("a cause and its cure");
    (cause.to_string(), cure.to_string())
}

#[test]
fn each_number_has_a_name_and_a_sentence_of_its_own() {
    let mut causes = vec![];
    for (place, (number, name)) in NAMED.into_iter().enumerate() {
        let refusal = Refusal::new(number, 0);
        assert_eq!((number as usize, refusal.name()), (place + 1, name));
        causes.push(sentence(refusal).0);
    }
    causes.sort();
    causes.dedup();
    assert_eq!(causes.len(), NAMED.len());
}

#[test]
fn an_index_is_told() {
    for number in [
        Refusal::SOURCE,
        Refusal::POINT,
        Refusal::UNSTORED,
        Refusal::NOTLEAF,
        Refusal::READING,
    ] {
        assert!(sentence(Refusal::new(number, 17)).0.contains(" 17"));
    }
    let text = Refusal::new(Refusal::SOURCE, 17).to_string();
    let right = "source 17 lies outside the box or is not a finite number: enlarge the box and build anew, or mend or remove the source (refused 6 SOURCE)";
    assert_eq!(text, right);
}

/// The wall, in words: which axis, and why; a coordinate that is not finite is not cured by a larger box.
#[test]
fn a_wall_is_told_in_words() {
    let source = Refusal::new(Refusal::SOURCE, 17);
    let right = "source 17 lies below the box on axis 1: enlarge the box and build anew, or mend or remove the source (refused 6 SOURCE)";
    assert_eq!(source.behind(1, Reason::Below).to_string(), right);
    let point = Refusal::new(Refusal::POINT, 0);
    let right = "target or looked-up point 0 lies above the box on axis 2: enlarge the box, or mend or remove the point (refused 7 POINT)";
    assert_eq!(point.behind(2, Reason::Above).to_string(), right);
    let right =
        "source 17 is not a finite number on axis 0: mend or remove the source (refused 6 SOURCE)";
    assert_eq!(source.behind(0, Reason::NotFinite).to_string(), right);
}

/// Reasons have the numbers of the C face and the listing.
#[test]
fn reasons_have_their_numbers() {
    for number in 1..=3 {
        assert_eq!(Reason::numbered(number).unwrap().number(), number);
    }
    assert_eq!([0, 4, u16::MAX].map(Reason::numbered), [None; 3]);
}

/// The calls pass the wall on: the first axis that has one decides, and on it the coordinate before its place.
#[test]
fn calls_name_the_wall() {
    let bounds = Bounds::new(&[4.0, 4.0], 4.0);
    for (point, axis, reason) in [
        ([9.0, f64::NAN], 0, Reason::Above),
        ([4.0, -1.0], 1, Reason::Below),
        ([f64::INFINITY, 4.0], 0, Reason::NotFinite),
        ([4.0, f64::NEG_INFINITY], 1, Reason::NotFinite),
        ([-1.7e308, 9.0], 0, Reason::Below),
        ([4.0, 1.7e308], 1, Reason::Above),
    ] {
        let wall = Some(Wall { axis, reason });
        assert_eq!(bounds.point_to_key(&point, 16).unwrap_err().wall, wall);
        assert_eq!(bounds.point_to_anchor(&point, 0).unwrap_err().wall, wall);
        let sources = [4.0, 4.0, point[0], point[1]];
        let refusal = Tree::build(Asked::new(&bounds, &sources, 1)).unwrap_err();
        assert_eq!(refusal.value, 1);
        assert_eq!(refusal.wall, wall);
    }
    assert_eq!(Bounds::new(&[4.0], 0.0).check().unwrap_err().wall, None);
}

/// A NaN is refused by the numbers of what lies outside, so their sentences fit it; and 7 fits a target of a build.
#[test]
fn a_nan_is_told_in_a_sentence_that_fits() {
    let bounds = Bounds::new(&[4.0], 4.0);
    let source = Tree::build(Asked::new(&bounds, &[0.5, f64::NAN], 1)).unwrap_err();
    assert_eq!((source.number, source.value), (Refusal::SOURCE, 1));
    let point = bounds.point_to_key(&[f64::NAN], 3).unwrap_err();
    assert_eq!((point.number, point.value), (Refusal::POINT, 0));
    for refusal in [source, point] {
        let (cause, _) = sentence(refusal);
        assert!(
            cause.ends_with("is not a finite number on axis 0"),
            "{cause}"
        );
    }
    let (cause, cure) = sentence(point);
    assert!(cause.starts_with("target or looked-up point 0 "), "{cause}");
    assert_eq!(cure, "mend or remove the point");
}

/// The cures of a short slice whose length is not known before: a longer one, or a larger limit.
#[test]
fn room_has_both_cures() {
    for value in [3, 6, 7, 12] {
        let (_, cure) = sentence(Refusal::new(Refusal::ROOM, value));
        assert!(
            cure.starts_with("lend ") && cure.contains("where the most"),
            "{cure}"
        );
        assert!(
            cure.ends_with("raise the limit of a cell and build anew"),
            "{cure}"
        );
    }
}

#[test]
fn room_names_the_slice() {
    let slices = [
        "work",
        "order column",
        "node column",
        "U starts",
        "V starts",
        "U keys",
        "V keys",
        "lookup output",
        "sourced cells",
        "list of changes",
        "file",
    ];
    for (place, slice) in slices.into_iter().enumerate() {
        let (cause, _) = sentence(Refusal::new(Refusal::ROOM, place + 1));
        assert!(cause.contains(slice) && cause.contains("short"), "{cause}");
    }
    let (cause, cure) = sentence(Refusal::new(Refusal::ROOM, 8));
    assert!(cause.contains("near work's counts") && cure.contains("one count for each node"));
    let (_, cure) = sentence(Refusal::new(Refusal::ROOM, 1));
    assert!(cure.contains("for the sum check one more than there are sources"));
    let (cause, _) = sentence(Refusal::new(Refusal::ROOM, 12));
    assert_eq!(cause, "a lent slice is short");
}

#[test]
fn a_number_without_a_name_is_told_too() {
    for number in [0, 21, 99, u64::MAX] {
        let refusal = Refusal::new(number, 3);
        assert_eq!(refusal.name(), "");
        let end = format!("(refused {number} 3)");
        assert!(refusal.to_string().ends_with(&end));
    }
}

#[test]
fn a_pattern_takes_the_numbers() {
    let bounds = Bounds::new(&[4.0], 4.0);
    let outside = match Tree::build(Asked::new(&bounds, &[0.5, 9.0], 1)) {
        Err(Refusal {
            number: Refusal::SOURCE,
            value,
            ..
        }) => Some(value),
        _ => None,
    };
    assert_eq!(outside, Some(1));
}
