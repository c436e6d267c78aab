//! The survey files of the two recordings.
use crate::answers;
use crate::damaged;
use crate::random::Random;
use crate::room::{self, Wanted};
use crate::shapes::{self, SHAPES, Shape};
use crate::survey::Survey;

pub const SEED: u64 = 41_379_942;

/// A random survey whose listing would be longer than this is thinned out.
const LONGEST_LISTING: usize = 12_000;

/// Boxes by centre and radius: the example's, the smallest, the largest, one that is no power of two, one off zero.
const BOXES: [(f64, f64); 6] = [
    (4.0, 4.0),
    (0.0, 0.25),
    (-16_777_216.0, 1_048_576.0),
    (16_777_216.0, 0.25),
    (1.3, 7.7),
    (-1000.5, 300.001),
];

fn example() -> Survey {
    Survey::new(1, 4.0, 4.0).sources(&[0.5, 1.5, 6.5, 7.5])
}

/// No sources, with and without empty cells, with and without targets; one source.
fn few_sources(axes: usize) -> Vec<Survey> {
    let none = Survey::new(axes, 4.0, 4.0);
    let targets = vec![3.0; axes * 40];
    vec![
        none.clone(),
        none.clone().keep_empty(),
        none.clone().targets(&targets),
        none.clone().keep_empty().targets(&targets),
        none.clone().limit(0).sources(&vec![0.5; axes]),
        none.clone().limit(0).keep_empty().sources(&vec![7.5; axes]),
        none.clone().limit(9).sources(&vec![7.5; axes]),
    ]
}

/// Zeros of both signs and numbers near them, in a box whose low wall is 0, and the numbers at the high wall.
fn at_zero() -> Vec<Survey> {
    let small = [0.0, -0.0, 5e-324, 1e-310, f64::MIN_POSITIVE, 1e-300];
    let wide = |centre, sources: &[f64]| Survey::new(1, centre, centre).sources(sources);
    vec![
        wide(4.0, &small),
        wide(4.0, &small).keep_empty().limit(6),
        wide(4.0, &[1.0, -0.0, -5e-324]),
        // The quotient of the negative number rounds to -0.0, which is inside; of the next it does not.
        wide(65536.0, &[-5e-324, -0.0, 1.0]),
        wide(65536.0, &[-5e-324, -1e-323]),
        wide(32768.0, &[-5e-324]),
        wide(1_048_576.0, &[-5e-324 * 16.0, 3.0]),
        wide(1_048_576.0, &[-5e-324 * 17.0, 3.0]),
        wide(4.0, &[f64::NAN]),
        wide(4.0, &[8.0_f64.next_down(), 8.0]),
        Survey::new(1, 0.0, 4.0).sources(&[4.0_f64.next_down().next_down()]),
        Survey::new(1, 0.0, 4.0).sources(&[4.0_f64.next_down()]),
        Survey::new(2, 4.0, 4.0).sources(&[0.0, -0.0, 5e-324, 7.0, 7.0, -1e-310]),
    ]
}

/// BOX, ORDER, SOURCE and POINT, each alone and beside those that come after it.
fn refused_by_build() -> Vec<Survey> {
    let whole = example().targets(&[1.0, 2.0, 3.0]).keep_empty();
    let mut boxes = vec![];
    for radius in [
        0.25,
        1_048_576.0,
        0.25_f64.next_down(),
        1_048_576.0_f64.next_up(),
    ] {
        let empty = Survey::new(3, 0.0, radius);
        boxes.push(empty.sources(&[0.1, -0.1, 0.2]));
    }
    for radius in [0.0, -0.0, -4.0, f64::NAN, f64::INFINITY, f64::NEG_INFINITY] {
        boxes.push(Survey {
            radius,
            ..whole.clone()
        });
    }
    for axes in 1..=3 {
        for bad in [f64::NAN, f64::INFINITY, 16_777_216.0_f64.next_up(), -1e300] {
            // The last entry that is read, and the one past the axes, which is not.
            for at in (axes - 1..=axes).filter(|&at| at < 3) {
                let mut s = Survey::new(axes, 4.0, 4.0).sources(&vec![1.0; 2 * axes]);
                s.centre[at] = bad;
                boxes.push(s);
            }
        }
    }
    let mut files = boxes;
    files.push(
        Survey {
            radius: 0.0,
            order: 0,
            ..whole.clone()
        }
        .sources(&[99.0]),
    );
    for order in [0, 64, 65, u32::MAX] {
        files.push(whole.clone().order(order));
        files.push(
            whole
                .clone()
                .order(order)
                .sources(&[1.0, -1.0])
                .targets(&[9.0]),
        );
    }
    for bad in [f64::NAN, f64::INFINITY, -0.5, 8.0, 1e308, -5e-324] {
        files.push(whole.clone().sources(&[1.0, 2.0, bad, bad]));
        files.push(whole.clone().targets(&[1.0, bad, 2.0, bad]));
        files.push(whole.clone().sources(&[bad]).targets(&[bad]));
    }
    // The last axis of a row decides too.
    files.push(Survey::new(3, 4.0, 4.0).sources(&[1.0, 1.0, 1.0, 2.0, 2.0, 8.0]));
    files.push(Survey::new(2, 4.0, 4.0).sources(&[1.0, 1.0, 2.0, -1.0]));
    files
}

/// Targets that split no cell, as empty cells are left out: the build does not look at them, near work does.
fn unused_targets() -> Vec<Survey> {
    let whole = example().order(0);
    vec![
        whole.clone().targets(&[f64::NAN, -1.0, f64::INFINITY]),
        whole.clone().targets(&[0.5; 40]),
        // A NaN with another pattern.
        whole.targets(&[f64::from_bits(0x7FF0_0000_0000_0001)]),
    ]
}

/// Targets by which near work is counted: in leaves with sources and without, and such as no leaf holds or as are outside,
/// the lower index first in turn.
fn near_targets() -> Vec<Survey> {
    let e = example;
    let mut files: Vec<Survey> = [
        &[0.5][..],
        &[3.0],
        &[8.0],
        &[3.0, 8.0],
        &[8.0, 3.0],
        &[0.5, 7.9, 1.0, 6.0, 0.0, -0.0, 8.0_f64.next_down()],
        &[7.5, 6.5, 1.5, 0.5],
        &[0.5, 2.5, -1.0],
        &[0.5, -1.0, 2.5],
        &[0.5, 1.5, f64::NAN],
        &[f64::INFINITY, 3.0],
        &[-5e-324],
    ]
    .map(|targets| e().targets(targets))
    .to_vec();
    // Empty leaves, and a coarse one beside fine ones.
    files.push(e().keep_empty().targets(&[2.5, 3.0, 4.0, 5.0, 5.0]));
    let fine: Vec<f64> = (0..24).map(|n| 4.0 - f64::from(n) / 64.0 - 1e-3).collect();
    let beside = Survey::new(1, 4.0, 4.0).sources(&fine);
    files.push(beside.clone().keep_empty().targets(&[7.0; 60]));
    files.push(beside.targets(&[7.0]));
    for axes in 1..=3 {
        // A tree of the root alone holds no target; one of empty cells holds all.
        let s = Survey::new(axes, 4.0, 4.0);
        files.push(s.clone().targets(&vec![1.0; axes]));
        files.push(s.clone().keep_empty().targets(&vec![1.0; 2 * axes]));
        // A leaf of level 1 beside one of level 16; on the last axis a wall.
        let far: Vec<f64> = [0.5, 0.5, 7.5].map(|x| vec![x; axes]).concat();
        let mut behind = far.clone();
        *behind.last_mut().unwrap() = -1.0;
        files.push(s.clone().sources(&far).targets(&far[axes..]));
        files.push(s.clone().sources(&far).targets(&behind));
        files.push(s.keep_empty().sources(&far).targets(&far[axes..]));
    }
    // The lists are over their room: that is told, and not the target.
    files.push(
        Survey::new(3, 4.0, 4.0)
            .sources(&grid())
            .targets(&[f64::NAN; 3]),
    );
    files
}

/// Surveys without empty cells whose targets are some of the sources' places, again and again, and then one of any place.
fn near_at_random(random: &mut Random) -> Vec<Survey> {
    let mut files = vec![];
    for axes in 1..=3 {
        for shape in SHAPES {
            let mut s = random_survey(random, axes, shape, false);
            let rows = s.sources.len() / axes;
            s.targets.clear();
            for _ in 0..random.index(40) {
                let at = random.index(rows) * axes;
                s.targets.extend_from_slice(&s.sources[at..at + axes]);
            }
            if random.once_in(3) {
                let any = shapes::points(random, &s, Shape::Uniform, 1);
                s.targets.extend(any);
            }
            files.push(s);
        }
    }
    files
}

/// Targets that split cells: with no source near, with even sources around, beside a cluster; and at each count's edge.
fn refined(random: &mut Random) -> Vec<Survey> {
    let mut files = vec![];
    for count in [16, 17, 32, 33, 64, 65] {
        let s = Survey::new(1, 4.0, 4.0).keep_empty();
        files.push(s.clone().sources(&[0.5]).targets(&vec![0.5; count]));
        files.push(s.clone().sources(&[7.5]).targets(&vec![0.5; count]));
        files.push(s.sources(&[0.5, 2.5, 4.5, 6.5]).targets(&vec![2.5; count]));
    }
    for axes in 1..=3 {
        for (limit, order) in [(0, 1), (2, 1), (3, 2)] {
            let s = Survey::new(axes, 4.0, 4.0)
                .keep_empty()
                .limit(limit)
                .order(order);
            let sources = random.pick(&[Shape::Cluster, Shape::Line, Shape::Uniform]);
            let sources = shapes::points(random, &s, sources, 6);
            let targets = random.pick(&[Shape::Cluster, Shape::Walls]);
            let targets = shapes::points(random, &s, targets, 64);
            files.push(thinned(s.sources(&sources).targets(&targets)));
        }
    }
    files
}

/// Half of the sources and targets at a time are left out until the listing is short.
fn thinned(mut s: Survey) -> Survey {
    while answers::length(&s) > LONGEST_LISTING {
        for points in [&mut s.sources, &mut s.targets] {
            points.truncate(points.len() / s.axes / 2 * s.axes);
        }
    }
    s
}

/// A survey of a shape in each box, with all limits in turn.
fn random_survey(random: &mut Random, axes: usize, shape: Shape, keep_empty: bool) -> Survey {
    let (centre, radius) = random.pick(&BOXES);
    let mut s = Survey::new(axes, centre, radius);
    s.keep_empty = keep_empty;
    s.limit = random.pick(&[0, 1, 1, 3, 3, 20, u32::MAX]);
    s.order = 1 + random.below(3) as u32;
    let count = 1 + random.index(24);
    s.sources = shapes::points(random, &s, shape, count);
    if random.once_in(2) {
        let (shape, count) = (random.pick(&SHAPES), 1 + random.index(40));
        s.targets = shapes::points(random, &s, shape, count);
    }
    thinned(s)
}

fn random_surveys(random: &mut Random) -> Vec<Survey> {
    let mut files = vec![];
    for axes in 1..=3 {
        for shape in SHAPES {
            for keep_empty in [false, true] {
                files.push(random_survey(random, axes, shape, keep_empty));
            }
        }
    }
    files
}

/// A source in each cell of level 1 of three axes but the first.
fn seven_corners() -> Survey {
    let corner = |n: usize| (0..3).map(move |a| if n >> a & 1 == 0 { 1.0 } else { 7.0 });
    let corners: Vec<f64> = (1..8).flat_map(corner).collect();
    Survey::new(3, 4.0, 4.0).sources(&corners)
}

/// A source in each cell of level 3 of three axes.
fn grid() -> Vec<f64> {
    let place = |n: usize| [n % 8, n / 8 % 8, n / 64].map(|step| step as f64 + 0.5);
    (0..512).flat_map(place).collect()
}

/// The listing program's room exactly filled, and passed by the least that there is.
fn rooms(random: &mut Random) -> Vec<Survey> {
    let one = || Survey::new(1, 4.0, 4.0);
    let two = || Survey::new(2, 4.0, 4.0);
    let wanted = [
        (one(), Wanted::Nodes(2_048)),
        (one(), Wanted::Nodes(2_049)),
        (two().limit(0).keep_empty(), Wanted::Nodes(2_049)),
        (seven_corners(), Wanted::U(8_192)),
        (seven_corners(), Wanted::U(8_193)),
        (two().keep_empty(), Wanted::V(8_192)),
        (two().keep_empty(), Wanted::V(8_193)),
        (Survey::new(3, 4.0, 4.0), Wanted::V(8_194)),
    ];
    let mut files: Vec<Survey> = wanted
        .map(|(first, wanted)| room::sized(random, first, wanted))
        .to_vec();
    // Both lists are over: U is named. Nodes are over as well: nodes are named.
    files.push(Survey::new(3, 4.0, 4.0).sources(&grid()));
    files.push(
        Survey::new(3, 4.0, 4.0)
            .sources(&grid()[..60])
            .limit(0)
            .keep_empty(),
    );
    files
}

/// The files of the listing recording.
pub fn of_listing() -> Vec<Vec<u8>> {
    let mut surveys = vec![example()];
    (1..=3).for_each(|axes| surveys.extend(few_sources(axes)));
    surveys.extend(at_zero());
    surveys.extend(refused_by_build());
    surveys.extend(unused_targets());
    surveys.extend(near_targets());
    surveys.extend(near_at_random(&mut Random::of(SEED, "near", 0)));
    surveys.extend(refined(&mut Random::of(SEED, "refined", 0)));
    surveys.extend(random_surveys(&mut Random::of(SEED, "listing", 0)));
    surveys.extend(rooms(&mut Random::of(SEED, "rooms", 0)));
    let mut files: Vec<Vec<u8>> = surveys.iter().map(Survey::bytes).collect();
    files.extend(damaged::all());
    files
}

/// Points to look up beside the example's tree: stored and not, inside and not, the lower index first in turn.
fn chosen_lookups() -> Vec<Survey> {
    let e = example;
    let mut files = vec![
        e().targets(&[0.5, 7.9, 1.0, 6.0, 0.0, -0.0, 8.0_f64.next_down()]),
        e().targets(&[0.5, 2.5, -1.0]),
        e().targets(&[0.5, -1.0, 2.5]),
        e().targets(&[0.5, 1.5, f64::NAN]),
        e().targets(&[8.0]),
        e().targets(&[f64::INFINITY, 3.0]),
        e().targets(&[-5e-324]),
        e().targets(&[5e-324, 2.0_f64.next_down(), 2.0]),
        e(),
        e().keep_empty().targets(&[0.0, 2.5, 3.0, 4.0, 5.0, 7.9]),
        e().keep_empty().targets(&[0.0, 8.0, -1.0]),
        e().keep_empty().order(0).targets(&[8.0]),
        e().order(0).targets(&[7.5]),
        e().sources(&[-1.0]).targets(&[9.0]),
        Survey::new(1, 65536.0, 65536.0)
            .sources(&[1.0])
            .targets(&[-5e-324, 1.0]),
        Survey::new(1, 65536.0, 65536.0)
            .sources(&[1.0])
            .targets(&[1.0, -1e-323]),
    ];
    for axes in 1..=3 {
        let s = Survey::new(axes, 4.0, 4.0);
        // A tree of the root alone holds no point; one of empty cells holds all.
        files.push(s.clone().targets(&vec![1.0; axes]));
        files.push(s.clone().keep_empty().targets(&vec![1.0; 2 * axes]));
        // A leaf of level 1 beside one of level 16: 15 steps.
        let far: Vec<f64> = [0.5, 0.5, 7.5].map(|x| vec![x; axes]).concat();
        files.push(s.clone().sources(&far).targets(&far));
        files.push(s.keep_empty().sources(&far).targets(&far));
    }
    files
}

/// The sources' own places, turned round, and then none, points beside walls, or one that is outside.
fn random_lookup(random: &mut Random, axes: usize, shape: Shape, keep_empty: bool) -> Survey {
    let mut s = random_survey(random, axes, shape, keep_empty);
    let sources: Vec<&[f64]> = s.sources.chunks(axes).rev().collect();
    s.targets = sources.concat();
    let more = match random.below(4) {
        0 => shapes::points(random, &s, Shape::BesideWalls, 30),
        1 => vec![s.centre[0] + 1.5 * s.radius; axes],
        _ => vec![],
    };
    s.targets.extend(more);
    s
}

/// The files of the lookup recording: the targets are the points to look up.
pub fn of_lookup() -> Vec<Vec<u8>> {
    let mut surveys = chosen_lookups();
    let mut random = Random::of(SEED, "lookup", 0);
    for axes in 1..=3 {
        for shape in SHAPES {
            for keep_empty in [false, true, false, true] {
                surveys.push(random_lookup(&mut random, axes, shape, keep_empty));
            }
        }
    }
    surveys.iter().map(Survey::bytes).collect()
}
