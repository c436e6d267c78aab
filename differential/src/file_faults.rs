//! Tree files with something changed: bytes, lengths, entries of the trailer, sections that a reader skips, gaps and overlaps.
use crate::plain_file::{Draft, Entry};
use crate::random::Random;

/// A file with each of its bytes set to 0, to 255, to one more and to one less.
pub fn bytes_changed(file: &[u8]) -> impl Iterator<Item = (String, Vec<u8>)> {
    (0..file.len()).flat_map(move |at| {
        let was = file[at];
        [0, 255, was.wrapping_add(1), was.wrapping_sub(1)].map(|byte| {
            let mut other = file.to_vec();
            other[at] = byte;
            (format!("byte {at} is {byte} and not {was}"), other)
        })
    })
}

/// A file cut to each shorter length, from either end, and one byte longer at either.
pub fn cut(file: &[u8]) -> impl Iterator<Item = (String, Vec<u8>)> {
    let cuts = (0..file.len()).flat_map(move |at| {
        let first = (format!("the first {at} bytes"), file[..at].to_vec());
        let last = (format!("without the first {at} bytes"), file[at..].to_vec());
        [first, last]
    });
    let longer = [
        ("a byte more".to_string(), [file, &[0]].concat()),
        ("a byte before".to_string(), [&[0], file].concat()),
    ];
    cuts.chain(longer)
}

/// The same file with the entries of its trailer in another order.
pub fn permuted(r: &mut Random, draft: &Draft) -> Draft {
    let mut other = draft.clone();
    for i in (1..other.entries.len()).rev() {
        other.entries.swap(i, r.index(i + 1));
    }
    other
}

/// A place where sections meet: before the first, between two, or after the last.
fn seam(r: &mut Random, draft: &Draft) -> usize {
    let mut seams: Vec<usize> = draft.entries.iter().map(|e| e.at).collect();
    seams.push(draft.body.len());
    r.pick(&seams)
}

/// The same sections with some bytes at a seam that no entry names; and where these are.
pub fn with_gap(r: &mut Random, draft: &Draft) -> (Draft, Entry) {
    let mut other = draft.clone();
    let at = seam(r, draft);
    let bytes: Vec<u8> = (0..r.index(30)).map(|_| r.next() as u8).collect();
    // a section that ends at the seam stays before it, also an empty one that only touches it
    for entry in other.entries.iter_mut().filter(|e| e.at >= at) {
        entry.at += bytes.len();
    }
    let length = bytes.len();
    other.body.splice(at..at, bytes);
    let code = 10 + r.below(22) as u32;
    (other, Entry { code, at, length })
}

/// The same sections and one of a code from 10 to 31, anywhere in the file and in the trailer.
pub fn with_skipped(r: &mut Random, draft: &Draft) -> Draft {
    let (mut other, entry) = with_gap(r, draft);
    other
        .entries
        .insert(r.index(other.entries.len() + 1), entry);
    other
}

/// The same sections and one of a code that is none, anywhere in the file and in the trailer.
pub fn with_wrong_code(r: &mut Random, draft: &Draft) -> Draft {
    let (mut other, mut entry) = with_gap(r, draft);
    entry.code = r.pick(&[0, 32, 33, 41, 42, 256 + 10, 65_536 + 10, u32::MAX]);
    other
        .entries
        .insert(r.index(other.entries.len() + 1), entry);
    other
}

/// All codes from 10 to 31, each of some bytes that stand in the file already, at any place of the trailer.
pub fn with_all_skipped(r: &mut Random, draft: &Draft) -> Draft {
    let mut other = draft.clone();
    for code in 10..=31 {
        let at = r.index(other.body.len() + 1);
        let length = r.index(other.body.len() - at + 1);
        let place = r.index(other.entries.len() + 1);
        other.entries.insert(place, Entry { code, at, length });
    }
    other
}

/// One of the entries twice.
pub fn with_repeat(r: &mut Random, draft: &Draft) -> Draft {
    let mut other = with_skipped(r, draft);
    let entry = r.pick(&other.entries);
    let place = r.index(other.entries.len() + 1);
    other.entries.insert(place, entry);
    other
}

/// One of the entries left out.
pub fn without_one(r: &mut Random, draft: &Draft) -> Draft {
    let mut other = draft.clone();
    other.entries.remove(r.index(draft.entries.len()));
    other
}

/// The same sections, each of them at the last place where its bytes stand, so that some share bytes and overlap.
pub fn overlapping(draft: &Draft) -> Draft {
    let mut other = draft.clone();
    for entry in &mut other.entries {
        let bytes = &draft.body[entry.at..entry.at + entry.length];
        let found = |at: &usize| &draft.body[*at..*at + bytes.len()] == bytes;
        let last = (0..=draft.body.len() - bytes.len()).rev().find(found);
        entry.at = last.unwrap_or(entry.at);
    }
    other
}

/// One number of the trailer changed, to one beside it or to any.
pub fn trailer_changed(r: &mut Random, draft: &Draft) -> Vec<u8> {
    let mut file = draft.file();
    let start = draft.body.len();
    let at = start + 4 * r.index((file.len() - start) / 4);
    let was = u32::from_le_bytes(file[at..at + 4].try_into().expect("four bytes"));
    let start = start as u32;
    let beside = [1_u32, 2, 4, 8, 12].map(|by| [was.wrapping_add(by), was.wrapping_sub(by)]);
    let any = [
        0,
        1,
        3,
        9,
        10,
        31,
        32,
        start,
        start + 1,
        u32::MAX,
        r.next() as u32,
    ];
    let number = if r.once_in(2) {
        r.pick(beside.as_flattened())
    } else {
        r.pick(&any)
    };
    file[at..at + 4].copy_from_slice(&number.to_le_bytes());
    file
}

/// One number of one section changed: to one beside it, to any, or to that of another place in the section.
pub fn section_changed(r: &mut Random, draft: &Draft) -> Option<Draft> {
    let entry = r.pick(&draft.entries);
    let width = if [1, 7, 9].contains(&entry.code) {
        8
    } else {
        4
    };
    let count = entry.length / width;
    if count == 0 {
        return None;
    }
    let mut other = draft.clone();
    let (at, from) = (r.index(count), r.index(count));
    let place = |n: usize| entry.at + n * width..entry.at + (n + 1) * width;
    let number = draft.body[place(at)]
        .iter()
        .rev()
        .fold(0, |n, b| n << 8 | u64::from(*b));
    let number = match r.below(6) {
        0 => number.wrapping_add(1),
        1 => number.wrapping_sub(1),
        2 => number ^ 1 << r.index(8 * width),
        3 => r.next(),
        4 => 0,
        _ => {
            other.body.copy_within(place(from), place(at).start);
            return Some(other);
        }
    };
    other.body[place(at)].copy_from_slice(&number.to_le_bytes()[..width]);
    Some(other)
}

/// A section one number longer or shorter, with the bytes that stand there.
pub fn length_changed(r: &mut Random, draft: &Draft) -> Draft {
    let mut other = draft.clone();
    let entry = &mut other.entries[r.index(draft.entries.len())];
    let width = if [1, 7, 9].contains(&entry.code) {
        8
    } else {
        4
    };
    let by = r.pick(&[1, width, 2 * width]);
    if r.once_in(2) {
        entry.length += by;
    } else {
        entry.length = entry.length.saturating_sub(by);
    }
    other
}
