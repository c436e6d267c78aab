//! The file of a tree, beside a plain writer made from document 02's text alone, and read again.
use lohandema::{Asked, Bounds, Held, Lists, Refusal, Rows, Tree, lent};

/// Whole numbers that look random.
struct Numbers(u64);

impl Numbers {
    fn next(&mut self) -> u64 {
        self.0 ^= self.0 << 13;
        self.0 ^= self.0 >> 7;
        self.0 ^= self.0 << 17;
        self.0
    }

    fn points(&mut self, coordinates: usize) -> Vec<f64> {
        (0..coordinates)
            .map(|_| (self.next() % 65_536) as f64 / 8192.0)
            .collect()
    }
}

fn numbers(column: &[usize]) -> Vec<u8> {
    column
        .iter()
        .flat_map(|n| (*n as u32).to_le_bytes())
        .collect()
}

fn keys(column: &[u64]) -> Vec<u8> {
    column.iter().flat_map(|key| key.to_le_bytes()).collect()
}

/// Sections, then a trailer of one entry a section, u32 axes and u32 number of entries.
fn plain(tree: &Tree, lists: &Lists) -> Vec<u8> {
    let sections = [
        (1_u32, keys(&tree.key)),
        (2, numbers(&tree.own)),
        (3, numbers(&tree.begin)),
        (4, numbers(&tree.total)),
        (5, numbers(&tree.order)),
        (6, numbers(&lists.u.starts)),
        (7, keys(&lists.u.keys)),
        (8, numbers(&lists.v.starts)),
        (9, keys(&lists.v.keys)),
    ];
    let mut file = Vec::new();
    let mut places = Vec::new();
    for (code, bytes) in &sections {
        places.push((*code, file.len(), bytes.len()));
        file.extend(bytes);
    }
    let trailer = file.len();
    for (code, place, length) in places {
        file.extend(code.to_le_bytes());
        file.extend(((trailer - place) as u32).to_le_bytes());
        file.extend((length as u32).to_le_bytes());
    }
    file.extend((tree.axes() as u32).to_le_bytes());
    file.extend((sections.len() as u32).to_le_bytes());
    file
}

fn built(axes: usize, sources: &[f64], limit: usize) -> (Tree, Lists) {
    let bounds = Bounds::new(&[4.0; 3][..axes], 4.0);
    let tree = Tree::build(Asked::new(&bounds, sources, limit)).unwrap();
    let lists = tree.get_interaction_lists().unwrap();
    (tree, lists)
}

#[test]
fn files_are_the_plain_ones() {
    let mut random = Numbers(88_172_645_463_325_252);
    for axes in 1..=3 {
        for points in [0, 1, 2, 7, 60, 900] {
            for limit in [0, 1, 5] {
                let sources = random.points(points * axes);
                let (tree, lists) = built(axes, &sources, limit);
                let file = tree.to_file(&lists).unwrap();
                assert_eq!(file, plain(&tree, &lists));
                assert_eq!(Tree::from_file(tree.bounds, &file), Ok((tree, lists)));
            }
        }
    }
}

#[test]
fn exactly_enough_is_enough_and_the_rest_is_zero() {
    let (tree, lists) = built(1, &[0.5, 1.5, 6.5, 7.5], 1);
    let right = plain(&tree, &lists);
    for more in [0, 1, 30] {
        let mut file = vec![255; right.len() + more];
        let written = lent::write_tree(tree.columns(), &tree.order, &lists, &mut file);
        assert_eq!(written, Ok(right.len()));
        assert_eq!(file[..right.len()], right);
        assert!(file[right.len()..].iter().all(|byte| *byte == 0));
    }
    for short in [0, 1, right.len() - 1] {
        let mut file = vec![255; short];
        let written = lent::write_tree(tree.columns(), &tree.order, &lists, &mut file);
        assert_eq!(written, Err(Refusal::new(Refusal::ROOM, 11)));
        assert!(file.iter().all(|byte| *byte == 0));
    }
}

#[test]
fn refusals_come_in_their_order() {
    let (tree, lists) = built(1, &[0.5, 1.5, 6.5, 7.5], 1);
    let refused = |axes: usize, total: &[usize], order: &[usize], lists: &Lists| {
        let mut columns = tree.columns();
        columns.axes = axes;
        columns.total = total;
        let mut file = [255; 8];
        let written = lent::write_tree(columns, order, lists, &mut file);
        assert_eq!(file, [0; 8]);
        written.unwrap_err()
    };
    let twice = [0, 1, 2, 2];
    let mut totals = tree.total.clone();
    totals[0] += 1;
    let mut other = lists.clone();
    std::mem::swap(&mut other.u, &mut other.v);
    let zero = |number| Refusal::new(number, 0);
    assert_eq!(refused(0, &totals, &twice, &other), zero(Refusal::DIMS));
    assert_eq!(refused(4, &totals, &twice, &other), zero(Refusal::DIMS));
    assert_eq!(refused(1, &totals, &twice, &other), zero(Refusal::TREE));
    assert_eq!(
        refused(1, &tree.total, &twice, &lists),
        zero(Refusal::SECTION)
    );
    assert_eq!(
        refused(1, &tree.total, &tree.order[1..], &lists),
        zero(Refusal::SECTION)
    );
    assert_eq!(
        refused(1, &tree.total, &tree.order, &other),
        zero(Refusal::SECTION)
    );
    let room = Refusal::new(Refusal::ROOM, 11);
    assert_eq!(refused(1, &tree.total, &tree.order, &lists), room);
    // more keys than are counted, though the tree is wrong too
    let mut many = lists.clone();
    many.v.keys = vec![0; 16_777_217];
    assert_eq!(refused(1, &totals, &twice, &many), zero(Refusal::COUNT));
    many.v.keys.pop();
    assert_eq!(refused(1, &totals, &twice, &many), zero(Refusal::TREE));
}

/// What is lent to the reader: entries of order, key, own, begin, total, U starts and keys, V starts and keys.
struct Slices {
    order: Vec<usize>,
    key: Vec<u64>,
    columns: [Vec<usize>; 3],
    lists: Lists,
}

impl Slices {
    fn lent(room: [usize; 9]) -> Slices {
        let rows = |starts, keys| Rows {
            starts: vec![77; starts],
            keys: vec![77; keys],
        };
        Slices {
            order: vec![77; room[0]],
            key: vec![77; room[1]],
            columns: [vec![77; room[2]], vec![77; room[3]], vec![77; room[4]]],
            lists: Lists {
                u: rows(room[5], room[6]),
                v: rows(room[7], room[8]),
            },
        }
    }

    fn read(&mut self, file: &[u8]) -> Result<Held, Refusal> {
        let [own, begin, total] = &mut self.columns;
        let Lists { u, v } = &mut self.lists;
        lent::read_tree(
            file,
            &mut self.order,
            &mut self.key,
            own,
            begin,
            total,
            &mut u.starts,
            &mut u.keys,
            &mut v.starts,
            &mut v.keys,
        )
    }

    fn all_zero(&self) -> bool {
        let columns = self.columns.iter().chain([&self.order]);
        let numbers = columns.chain([&self.lists.u.starts, &self.lists.v.starts]);
        let keys = [&self.key, &self.lists.u.keys, &self.lists.v.keys];
        numbers.flatten().all(|n| *n == 0) && keys.into_iter().flatten().all(|k| *k == 0)
    }
}

#[test]
fn short_slices_are_told_after_a_bad_list() {
    let (tree, mut lists) = built(1, &[0.5, 1.5, 6.5, 7.5], 1);
    let file = plain(&tree, &lists);
    let exact = [4, 9, 9, 9, 9, 10, 8, 10, 2];
    let mut slices = Slices::lent(exact.map(|entries| entries + 1));
    let held = slices.read(&file).unwrap();
    assert_eq!((held.axes, held.nodes, held.sources), (1, 9, 4));
    assert_eq!((held.u, held.v), (8, 2));
    assert_eq!((&slices.key[..9], slices.key[9]), (&tree.key[..], 0));
    assert_eq!((&slices.order[..4], slices.order[4]), (&tree.order[..], 0));
    assert_eq!(slices.lists.v.keys, [98306, 2, 0]);
    lists.v.keys[1] = 32770;
    let bad = plain(&tree, &lists);
    for (i, value) in [2, 3, 3, 3, 3, 4, 6, 5, 7].into_iter().enumerate() {
        let mut room = exact;
        room[i] -= 1;
        for (file, refusal) in [
            (&file, Refusal::new(Refusal::ROOM, value)),
            (&bad, Refusal::new(Refusal::SECTION, 0)),
        ] {
            let mut slices = Slices::lent(room);
            assert_eq!(slices.read(file), Err(refusal));
            assert!(slices.all_zero());
        }
    }
}

#[test]
fn files_that_are_none_are_refused() {
    let (tree, lists) = built(2, &[0.5, 0.5, 6.5, 7.5], 1);
    let file = plain(&tree, &lists);
    for length in 0..file.len() {
        assert!(Tree::from_file(tree.bounds, &file[..length]).is_err());
    }
    let zero = |number| Err(Refusal::new(number, 0));
    let one_axis = Bounds::new(&[4.0], 4.0);
    assert_eq!(Tree::from_file(one_axis, &file), zero(Refusal::DIMS));
    let changed = |place: usize, byte: u8| {
        let mut other = file.clone();
        other[place] = byte;
        Tree::from_file(tree.bounds, &other)
    };
    let end = file.len();
    assert_eq!(changed(end - 8, 4), zero(Refusal::DIMS));
    assert_eq!(changed(end - 4, 8), zero(Refusal::SECTION));
    assert_eq!(changed(end - 1, 255), zero(Refusal::SECTION));
    assert_eq!(changed(8, 7), zero(Refusal::TREE));
}

#[test]
fn bytes_that_nobody_reads_may_be_anything() {
    let (tree, lists) = built(1, &[0.5, 1.5, 6.5, 7.5], 1);
    let file = plain(&tree, &lists);
    // a section of code 31 before the others: an entry more, and its bytes in front
    let (body, trailer) = file.split_at(file.len() - 9 * 12 - 8);
    let entry = [31_u32, body.len() as u32 + 5, 5].map(u32::to_le_bytes);
    let (entries, last) = trailer.split_at(9 * 12);
    let more = [
        &[1, 2, 3, 4, 5],
        body,
        entries,
        &entry.concat(),
        &last[..4],
        &10_u32.to_le_bytes(),
    ];
    assert_eq!(
        Tree::from_file(tree.bounds, &more.concat()),
        Ok((tree, lists))
    );
}
