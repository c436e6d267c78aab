//! Each kind runs in a process of its own. If it dies, the run still tells the kind, the case and the signal, and goes on.
use crate::tally::{Counts, Kind, Wanted};
use std::fs::{self, File};
use std::io::Result;
use std::os::unix::fs::FileExt;
use std::os::unix::process::ExitStatusExt;
use std::path::Path;
use std::process::{Command, ExitStatus, exit};
use std::{env, process};

/// Before the first case.
const NO_CASE: u64 = u64::MAX;

/// A file of five numbers through which a kind's process tells how far it is: the case that it is in, 1 once it has ended,
/// and then what was compared, what of it was refusals, and what differed.
pub struct Slate(File);

impl Slate {
    fn new(path: &Path) -> Result<Slate> {
        let slate = Slate(File::create_new(path)?);
        slate.write(0, &[NO_CASE, 0, 0, 0, 0]);
        Ok(slate)
    }

    /// The slate that the run has laid out for this process.
    pub fn given(path: &str) -> Slate {
        let file = File::options().write(true).open(path);
        Slate(file.unwrap_or_else(|e| panic!("{path}: {e}")))
    }

    fn write(&self, place: u64, numbers: &[u64]) {
        let bytes: Vec<u8> = numbers.iter().flat_map(|n| n.to_le_bytes()).collect();
        let written = self.0.write_all_at(&bytes, 8 * place);
        written.expect("the file that keeps the case could not be written: is the disk full?");
    }

    pub fn begins(&self, case: u64) {
        self.write(0, &[case]);
    }

    pub fn ended(&self, c: Counts) {
        self.write(1, &[1, c.compared, c.refusals, c.differences]);
    }
}

/// The five numbers of a slate.
fn read(path: &Path) -> Result<[u64; 5]> {
    let bytes = fs::read(path)?;
    let number = |place: usize| {
        let at = 8 * place;
        u64::from_le_bytes(bytes[at..at + 8].try_into().unwrap())
    };
    Ok([0, 1, 2, 3, 4].map(number))
}

/// How a process died, and in which case; with the words that repeat it.
fn death(w: &Wanted, kind: &str, case: u64, status: ExitStatus) -> String {
    let how = match status.signal() {
        Some(signal) => format!("signal {signal}"),
        None => format!("status {}", status.code().unwrap_or(-1)),
    };
    let (place, again) = match case {
        NO_CASE => ("before its first case".to_string(), String::new()),
        case => (format!("in case {case}"), format!(" --case {case}")),
    };
    format!(
        "kind {kind} died {place} ({how}): --seed {} --kind {kind}{again}",
        w.seed
    )
}

/// Runs one kind in a process of its own; none if it died.
fn run(w: &Wanted, kind: &str) -> Result<Option<Counts>> {
    let program = env::current_exe()?;
    let path = program.with_extension(format!("{}.case", process::id()));
    let slate = Slate::new(&path)?;
    let status = Command::new(&program)
        .args(env::args_os().skip(1))
        .args(["--kind", kind, "--slate"])
        .arg(&path)
        .status();
    drop(slate);
    let numbers = read(&path);
    fs::remove_file(&path)?;
    let (status, [case, ended, compared, refusals, differences]) = (status?, numbers?);
    if ended == 1 && status.success() {
        return Ok(Some(Counts {
            compared,
            refusals,
            differences,
        }));
    }
    println!("{}", death(w, kind, case, status));
    Ok(None)
}

/// Runs the kinds one after the other and says how much was compared; the status is 0 where nothing differed.
pub fn run_all(w: &Wanted, kinds: &[Kind]) -> ! {
    let (mut sum, mut ran, mut dead) = (Counts::default(), 0, 0);
    for (kind, _, _) in kinds {
        if w.kind.as_ref().is_some_and(|only| only != kind) {
            continue;
        }
        ran += 1;
        let ended = run(w, kind).unwrap_or_else(|e| {
            println!("kind {kind} could not be run: {e}");
            None
        });
        match ended {
            Some(counts) => sum += counts,
            None => dead += 1,
        }
    }
    if ran == 0 {
        println!("no kind of that name: differential/README.md lists them");
        exit(2);
    }
    if sum.compared + dead == 0 {
        println!("nothing was compared: the kind has no case of that number");
        exit(2);
    }
    let found = match (sum.differences, dead) {
        (0, 0) => "no difference".to_string(),
        (differences, 0) => format!("{differences} differences"),
        (differences, dead) => format!("died: {dead}; differences elsewhere: {differences}"),
    };
    let part = match (w.case, w.short) {
        (Some(_), _) => ", one case",
        (None, true) => ", a tenth of the cases",
        (None, false) => "",
    };
    println!(
        "{found}: {} compared, {} of them refusals, in {ran} {}{part}, seed {}",
        sum.compared,
        sum.refusals,
        if ran == 1 { "kind" } else { "kinds" },
        w.seed
    );
    exit(if sum.differences + dead > 0 { 1 } else { 0 });
}
