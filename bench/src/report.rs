//! What is printed: a line for each time and each ratio, and in the end the ratios that are over what is to be reached.
use std::cell::RefCell;

/// The most that a ratio is to be: of the lists beside the fastest plain reading, of growth beside `kept`, of near work beside
/// the lists and the lookup, of a build on a grid beside the listed points, of one source more beside the build of the longer
/// list, else beside the Rust.
fn to_reach(call: &str) -> f64 {
    match call {
        "lists" => 0.45,
        "growth" => 1.1,
        "build" => 0.08,
        "listed" => 0.2,
        "lookup" | "one_more" => 0.35,
        "near_work" | "check_sums" => 1.0,
        _ => panic!("{call}"),
    }
}

/// A tree as the lines name it.
#[derive(Clone, Copy)]
pub struct Named<'a> {
    pub shape: &'a str,
    pub limit: usize,
    pub keep: bool,
}

impl Named<'_> {
    fn words(&self) -> String {
        let keep = if self.keep { "on" } else { "off" };
        format!("{}-{} {keep}", self.shape, self.limit)
    }
}

#[derive(Default)]
pub struct Report {
    over: RefCell<Vec<String>>,
}

impl Report {
    /// The time that a side took, in milliseconds.
    pub fn time(&self, call: &str, side: &str, named: Named, time: f64) {
        println!("time {call} {side} {} {time:.3}", named.words());
    }

    /// A figure of ours over another side's.
    pub fn ratio(&self, call: &str, beside: &str, named: Named, value: f64) {
        println!("ratio {call} {beside} {} {value:.3}", named.words());
    }

    /// The time of another side, and ours over it, which is answered.
    pub fn share(&self, call: &str, side: &str, named: Named, [ours, theirs]: [f64; 2]) -> f64 {
        self.time(call, side, named, theirs);
        self.ratio(call, side, named, ours / theirs);
        ours / theirs
    }

    /// The same with our own time.
    pub fn beside(&self, call: &str, side: &str, named: Named, times: [f64; 2]) -> f64 {
        self.time(call, "ours", named, times[0]);
        self.share(call, side, named, times)
    }

    /// Remembers a ratio that is over what is to be reached.
    pub fn judge(&self, call: &str, named: Named, value: f64) {
        if value > to_reach(call) {
            let line = format!("{call} {} {value:.3}", named.words());
            self.over.borrow_mut().push(line);
        }
    }

    /// The last line.
    pub fn end(&self) {
        let over = self.over.borrow();
        if over.is_empty() {
            println!("over what is to be reached: none of those measured");
        } else {
            println!("over what is to be reached: {}", over.join(", "));
        }
    }
}
