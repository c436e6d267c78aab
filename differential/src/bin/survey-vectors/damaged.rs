//! Files that break the rules of document 01, one rule each, and some that break two.
use crate::survey::{LONGEST, Survey, TRAILER};

// Where the trailer's fields stand in it.
const AXES: usize = 0;
const FLAGS: usize = 4;
const BACK_TO_SOURCES: usize = 48;
const SOURCE_COUNT: usize = 52;
const BACK_TO_TARGETS: usize = 56;
const TARGET_COUNT: usize = 60;

/// The file with a field of its trailer changed.
fn with_field(bytes: &[u8], at: usize, change: impl Fn(u32) -> u32) -> Vec<u8> {
    let mut bytes = bytes.to_vec();
    let start = bytes.len() - TRAILER + at;
    let field = &mut bytes[start..start + 4];
    let value = u32::from_le_bytes(field.try_into().unwrap());
    field.copy_from_slice(&change(value).to_le_bytes());
    bytes
}

/// Two sources and a target.
fn whole(axes: usize) -> Survey {
    let row = |x: f64| vec![x; axes];
    let sources: Vec<f64> = [0.5, 7.5].map(row).concat();
    Survey::new(axes, 4.0, 4.0)
        .sources(&sources)
        .targets(&row(2.5))
}

/// Under 64 bytes, over 32,768, and exactly that.
fn lengths() -> Vec<Vec<u8>> {
    let whole = whole(1).bytes();
    let trailer = Survey::new(1, 4.0, 4.0).bytes();
    let longest = Survey::new(1, 4.0, 4.0)
        .limit(4_000_000_000)
        .sources(&vec![1.25; (LONGEST - TRAILER) / 8])
        .bytes();
    let mut longer = vec![0];
    longer.extend(&longest);
    vec![
        vec![],
        vec![1],
        trailer[1..].to_vec(),
        trailer[..63].to_vec(),
        whole[..63].to_vec(),
        longest,
        longer,
    ]
}

/// Rows that are a byte or a number short or long, at the front, between and behind.
fn rows(axes: usize) -> Vec<Vec<u8>> {
    let whole = whole(axes).bytes();
    let mut files = vec![];
    for extra in [1, 8, 8 * axes] {
        files.push(whole[extra..].to_vec());
        files.push([&vec![0; extra], &whole[..]].concat());
        let between = 16 * axes;
        files.push([&whole[..between], &vec![0; extra], &whole[between..]].concat());
        let behind = whole.len() - TRAILER;
        files.push([&whole[..behind], &vec![0; extra], &whole[behind..]].concat());
    }
    files
}

/// Each field of the trailer that points or counts, a little or far off, and so that a product of 32 bits wraps.
fn fields(axes: usize) -> Vec<Vec<u8>> {
    let whole = whole(axes).bytes();
    let mut files = vec![];
    for at in [BACK_TO_SOURCES, SOURCE_COUNT, BACK_TO_TARGETS, TARGET_COUNT] {
        for by in [1, 8, 1 << 28, 1 << 29] {
            files.push(with_field(&whole, at, |value| value.wrapping_add(by)));
        }
        files.push(with_field(&whole, at, |value| value - 1));
        files.push(with_field(&whole, at, |_| 0));
        files.push(with_field(&whole, at, |_| u32::MAX));
    }
    // The targets first: each number is right, but the places are exchanged.
    let back = 16 * axes as u32;
    let exchanged = with_field(&whole, BACK_TO_SOURCES, |_| back);
    files.push(with_field(&exchanged, BACK_TO_TARGETS, |both| both + back));
    // One row counted as a target and not as a source.
    let fewer = with_field(&whole, SOURCE_COUNT, |count| count - 1);
    files.push(with_field(&fewer, TARGET_COUNT, |count| count + 1));
    for flags in [2, 3, 1 << 8, 1 << 31, u32::MAX] {
        files.push(with_field(&whole, FLAGS, |_| flags));
    }
    files
}

/// Axes that are not 1 to 3, also beside other breaks: DIMS comes before the rest of FILE.
fn axes() -> Vec<Vec<u8>> {
    let whole = whole(2).bytes();
    let mut files: Vec<Vec<u8>> = [0, 4, 256, 1 << 31, u32::MAX]
        .map(|axes| with_field(&whole, AXES, |_| axes))
        .to_vec();
    files.push(with_field(&files[0], FLAGS, |_| 2));
    files.push(with_field(&files[1], SOURCE_COUNT, |_| 9));
    // Another number of axes than the rows have: FILE.
    files.extend([1, 3].map(|axes| with_field(&whole, AXES, |_| axes)));
    files
}

/// FILE comes before BOX.
fn before_box() -> Vec<Vec<u8>> {
    let mut survey = whole(1);
    survey.radius = 0.0;
    vec![
        with_field(&survey.bytes(), FLAGS, |_| 4),
        with_field(&survey.bytes(), TARGET_COUNT, |_| 0),
    ]
}

pub fn all() -> Vec<Vec<u8>> {
    let mut files = lengths();
    files.extend(axes());
    files.extend(before_box());
    for axes in 1..=3 {
        files.extend(rows(axes));
        files.extend(fields(axes));
    }
    files
}
