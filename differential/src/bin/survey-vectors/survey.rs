//! The house file of document 01: made from its fields, and read with the refusals of document 01.

pub const TRAILER: usize = 64;
pub const LONGEST: usize = 32_768;

/// Document 01's refusals that a survey can meet, each by its number; `value` beside it.
pub const DIMS: u64 = 1;
pub const BOX: u64 = 2;
pub const ORDER: u64 = 5;
pub const SOURCE: u64 = 6;
pub const POINT: u64 = 7;
pub const ROOM: u64 = 8;
pub const UNSTORED: u64 = 12;
pub const FILE: u64 = 15;

/// A refusal's number and value, and the wall of 6 and 7.
#[derive(Clone, Copy, Debug, PartialEq)]
pub struct Refused(pub u64, pub u64, pub Option<Wall>);

/// The first axis on which a point is outside, and 1, 2 or 3: not finite, below, above.
#[derive(Clone, Copy, Debug, PartialEq)]
pub struct Wall(pub usize, pub u64);

#[derive(Clone, Debug)]
pub struct Survey {
    pub axes: usize,
    pub keep_empty: bool,
    pub limit: u32,
    pub order: u32,
    pub centre: [f64; 3],
    pub radius: f64,
    pub sources: Vec<f64>,
    pub targets: Vec<f64>,
}

impl Survey {
    /// A box with one centre coordinate on all axes, no points, limit 1, order 1, empty cells left out.
    pub fn new(axes: usize, centre: f64, radius: f64) -> Survey {
        Survey {
            axes,
            keep_empty: false,
            limit: 1,
            order: 1,
            centre: [centre; 3],
            radius,
            sources: vec![],
            targets: vec![],
        }
    }

    pub fn sources(mut self, sources: &[f64]) -> Survey {
        self.sources = sources.to_vec();
        self
    }

    pub fn targets(mut self, targets: &[f64]) -> Survey {
        self.targets = targets.to_vec();
        self
    }

    pub fn limit(mut self, limit: u32) -> Survey {
        self.limit = limit;
        self
    }

    pub fn order(mut self, order: u32) -> Survey {
        self.order = order;
        self
    }

    pub fn keep_empty(mut self) -> Survey {
        self.keep_empty = true;
        self
    }

    pub fn bytes(&self) -> Vec<u8> {
        let mut bytes: Vec<u8> = vec![];
        for number in self.sources.iter().chain(&self.targets) {
            bytes.extend(number.to_le_bytes());
        }
        let rows = bytes.len() as u32;
        let flags = u32::from(self.keep_empty);
        for field in [self.axes as u32, flags, self.limit, self.order] {
            bytes.extend(field.to_le_bytes());
        }
        for number in self.centre.iter().chain([&self.radius]) {
            bytes.extend(number.to_le_bytes());
        }
        let of_targets = 8 * self.targets.len() as u32;
        let counts = [&self.sources, &self.targets].map(|v| (v.len() / self.axes) as u32);
        for field in [rows, counts[0], of_targets, counts[1]] {
            bytes.extend(field.to_le_bytes());
        }
        bytes
    }
}

fn u32_at(bytes: &[u8], at: usize) -> u32 {
    u32::from_le_bytes(bytes[at..at + 4].try_into().unwrap())
}

fn f64_at(bytes: &[u8], at: usize) -> f64 {
    f64::from_le_bytes(bytes[at..at + 8].try_into().unwrap())
}

fn numbers(bytes: &[u8]) -> Vec<f64> {
    bytes.chunks(8).map(|b| f64_at(b, 0)).collect()
}

/// The survey that a file holds, or FILE or DIMS.
pub fn read(bytes: &[u8]) -> Result<Survey, Refused> {
    if bytes.len() < TRAILER || bytes.len() > LONGEST {
        return Err(Refused(FILE, 0, None));
    }
    let (rows, trailer) = bytes.split_at(bytes.len() - TRAILER);
    let axes = u32_at(trailer, 0) as usize;
    if !(1..=3).contains(&axes) {
        return Err(Refused(DIMS, 0, None));
    }
    let flags = u32_at(trailer, 4);
    let [back_to_sources, sources, back_to_targets, targets] =
        [48, 52, 56, 60].map(|at| u64::from(u32_at(trailer, at)));
    let row = 8 * axes as u64;
    if flags > 1
        || back_to_sources != rows.len() as u64
        || back_to_targets != targets * row
        || back_to_sources != sources * row + targets * row
    {
        return Err(Refused(FILE, 0, None));
    }
    let (of_sources, of_targets) = rows.split_at((sources * row) as usize);
    Ok(Survey {
        axes,
        keep_empty: flags == 1,
        limit: u32_at(trailer, 8),
        order: u32_at(trailer, 12),
        centre: [16, 24, 32].map(|at| f64_at(trailer, at)),
        radius: f64_at(trailer, 40),
        sources: numbers(of_sources),
        targets: numbers(of_targets),
    })
}
