//! Compares the listings of the library, by the program of the crate `sheet_check`, with those of a reader of sheets over nalgebra,
//! to the byte:
//!
//!     sheets [--quick] [--seed N] [--threads N] [--program PATH]
//!     sheets --only HEX [--program PATH]
mod lister;
mod samples;

use lister::{listing, MOST_PASSES, REFUSALS};
use samples::{sheets, Sort, SORTS};
use std::collections::HashSet;
use std::hash::{DefaultHasher, Hash, Hasher};
use std::io::{Read, Write};
use std::path::{Path, PathBuf};
use std::process::{exit, Command, Stdio};
use std::sync::mpsc::sync_channel;
use std::sync::Mutex;
use std::thread;
use std::time::Instant;

/// What the program writes behind the listings: those of two sheets of its own (docs/COMPARISON.md).
const OWN: [&str; 2] = ["refused 12 at 0|", "refused 2 at 0|"];

const BATCH: usize = 256;

type Drawn = (Sort, Vec<u8>);

#[derive(Clone, Copy, Default)]
struct Count {
    sheets: u64,
    tables: u64,
    not_finite: u64,
    /// None, and then by their numbers.
    refused: [u64; 15],
    skipped: u64,
    differing: u64,
}

impl Count {
    fn add(&mut self, other: &Count) {
        self.sheets += other.sheets;
        self.tables += other.tables;
        self.not_finite += other.not_finite;
        for (mine, others) in self.refused.iter_mut().zip(other.refused) {
            *mine += others;
        }
        self.skipped += other.skipped;
        self.differing += other.differing;
    }
}

#[derive(Default)]
struct Found {
    counts: [Count; SORTS.len()],
    /// How many runs of the program failed; their sheets are then run one by one.
    failed: u64,
    differences: Vec<String>,
}

fn hexadecimal(sheet: &[u8]) -> String {
    sheet.iter().map(|byte| format!("{byte:02X}")).collect()
}

fn from_hexadecimal(line: &str) -> Option<Vec<u8>> {
    let digits: Option<Vec<u8>> = line.chars().map(|c| c.to_digit(16).map(|d| d as u8)).collect();
    let digits = digits.filter(|digits| digits.len() % 2 == 0)?;
    Some(digits.chunks(2).map(|pair| 16 * pair[0] + pair[1]).collect())
}

/// The program's listings of some sheets, with bars for newlines, or what was wrong with its output.
fn run(program: &Path, sheets: &[&[u8]]) -> Result<Vec<String>, String> {
    let spawned = Command::new(program).stdin(Stdio::piped()).stdout(Stdio::piped()).spawn();
    let mut child = spawned.map_err(|e| format!("{}: {e}", program.display()))?;
    let (Some(mut input), Some(mut output)) = (child.stdin.take(), child.stdout.take()) else {
        return Err("no pipes".to_owned());
    };
    let given: String = sheets.iter().map(|sheet| hexadecimal(sheet) + "\n").collect();
    let mut told = Vec::new();
    let read = thread::scope(|scope| {
        // A program that ends early closes the pipe, which its output then tells.
        scope.spawn(move || input.write_all(given.as_bytes()));
        output.read_to_end(&mut told)
    });
    let status = child.wait().map_err(|e| e.to_string())?;
    read.map_err(|e| e.to_string())?;
    let told = String::from_utf8(told).map_err(|e| e.to_string())?;
    let Some(told) = told.strip_suffix('\n') else {
        return Err(format!("the program's last line has no end, {status}"));
    };
    let mut lines: Vec<String> = told.split('\n').map(str::to_owned).collect();
    let own = lines.split_off(lines.len().saturating_sub(OWN.len()));
    if !status.success() || own != OWN || lines.len() != sheets.len() {
        return Err(format!("the program lists {} sheets of {}, and then {own:?}, {status}", lines.len(), sheets.len()));
    }
    Ok(lines)
}

/// The listing of one sheet, or in its place what was wrong.
fn alone(program: &Path, sheet: &[u8]) -> String {
    run(program, &[sheet]).map_or_else(|wrong| wrong, |listings| listings.concat())
}

fn compared(program: &Path, batch: Vec<Drawn>) -> Found {
    let mut found = Found::default();
    let mut wanted = Vec::new();
    for (sort, sheet) in &batch {
        let count = &mut found.counts[*sort as usize];
        match listing(sheet) {
            Some(listing) => {
                count.sheets += 1;
                count.tables += u64::from(listing.tables);
                count.not_finite += u64::from(listing.not_finite);
                count.refused[listing.refused.unwrap_or(0)] += 1;
                wanted.push((*sort, sheet.as_slice(), listing.text.replace('\n', "|")));
            }
            None => count.skipped += 1,
        }
    }
    if wanted.is_empty() {
        return found;
    }
    let given: Vec<&[u8]> = wanted.iter().map(|(_, sheet, _)| *sheet).collect();
    let told = run(program, &given).unwrap_or_else(|wrong| {
        found.failed += 1;
        let all: Vec<String> = given.iter().map(|sheet| hexadecimal(sheet)).collect();
        found.differences.push(format!("FAILED {wrong}; the sheets: {}", all.join(" ")));
        given.iter().map(|sheet| alone(program, sheet)).collect()
    });
    for (told, (sort, sheet, listing)) in told.iter().zip(&wanted) {
        if told != listing {
            found.counts[*sort as usize].differing += 1;
            let sheet = hexadecimal(sheet);
            found.differences.push(format!("DIFFERS {sort:?} --only {sheet}\n  library  {told}\n  nalgebra {listing}"));
        }
    }
    found
}

fn usage() -> ! {
    eprintln!("usage: sheets [--quick] [--seed N] [--threads N] [--program PATH] | sheets --only HEX [--program PATH]");
    exit(2)
}

fn parsed<T: std::str::FromStr>(word: Option<&String>) -> T {
    word.and_then(|w| w.parse().ok()).unwrap_or_else(|| usage())
}

fn only(program: &Path, sheet: Vec<u8>) -> ! {
    let Some(listing) = listing(&sheet) else {
        println!("not settled in {MOST_PASSES} passes");
        exit(2)
    };
    let nalgebra = listing.text.replace('\n', "|");
    let library = alone(program, &sheet);
    println!("library  {library}\nnalgebra {nalgebra}");
    exit(if library == nalgebra { 0 } else { 1 })
}

fn main() {
    // A panic of nalgebra is an answer here.
    std::panic::set_hook(Box::new(|_| {}));
    let words: Vec<String> = std::env::args().skip(1).collect();
    let at = |name: &str| words.iter().position(|w| w == name);
    let folder = Path::new(env!("CARGO_MANIFEST_DIR")).join("../crates/sheet_check");
    let program: PathBuf = match at("--program") {
        Some(i) => parsed(words.get(i + 1)),
        None => folder.join("out/sheet_check"),
    };
    if let Err(wrong) = run(&program, &[]) {
        eprintln!("sheets: {wrong}");
        exit(2)
    }
    if let Some(i) = at("--only") {
        only(&program, words.get(i + 1).and_then(|w| from_hexadecimal(w)).unwrap_or_else(|| usage()));
    }
    let seed = at("--seed").map_or(1, |i| parsed(words.get(i + 1)));
    let threads = match at("--threads") {
        Some(i) => parsed(words.get(i + 1)),
        None => thread::available_parallelism().map_or(1, |n| n.get()),
    };
    // The sheets of the tests are kept as what the program reads when it is tested.
    let kept = std::fs::read_to_string(folder.join("stdin")).unwrap_or_default();
    let tests: Option<Vec<Vec<u8>>> = kept.lines().map(from_hexadecimal).collect();
    let Some(tests) = tests.filter(|tests| !tests.is_empty()) else {
        eprintln!("sheets: no sheets in crates/sheet_check/stdin");
        exit(2)
    };

    let start = Instant::now();
    let found = Mutex::new(Found::default());
    let (sender, receiver) = sync_channel::<Vec<Drawn>>(threads);
    let receiver = Mutex::new(receiver);
    thread::scope(|scope| {
        for _ in 0..threads {
            scope.spawn(|| loop {
                let received = receiver.lock().expect("no thread panics with the lock").recv();
                let Ok(batch) = received else { break };
                let answer = compared(&program, batch);
                let mut found = found.lock().expect("no thread panics with the lock");
                for (count, other) in found.counts.iter_mut().zip(&answer.counts) {
                    count.add(other);
                }
                found.failed += answer.failed;
                found.differences.extend(answer.differences);
            });
        }
        // No sheet is tried twice.
        let mut known = HashSet::new();
        let mut batch = Vec::new();
        sheets(at("--quick").is_some(), seed, &tests, &mut |sort, sheet| {
            let mut hasher = DefaultHasher::new();
            sheet.hash(&mut hasher);
            if known.insert(hasher.finish()) {
                batch.push((sort, sheet));
            }
            if batch.len() == BATCH {
                sender.send(std::mem::take(&mut batch)).expect("a thread that receives");
            }
        });
        sender.send(batch).expect("a thread that receives");
        drop(sender);
    });
    let mut found = found.into_inner().expect("no thread panics with the lock");

    let numbers: String = (1..=14).map(|number| format!(" {number} |")).collect();
    println!("| Sort | Sheets | Tables listed | With NaN or infinite | Not refused |{numbers} Skipped | Differing |");
    println!("{}", "|---".repeat(21) + "|");
    let mut all = Count::default();
    for count in &found.counts {
        all.add(count);
    }
    let names = SORTS.iter().map(|sort| format!("{sort:?}")).chain(["All".to_owned()]);
    for (name, count) in names.zip(found.counts.iter().chain([&all])) {
        let refused: String = count.refused.iter().map(|n| format!(" {n} |")).collect();
        println!(
            "| {name} | {} | {} | {} |{refused} {} | {} |",
            count.sheets, count.tables, count.not_finite, count.skipped, count.differing
        );
    }
    let met = |number: usize| all.refused[number] > 0;
    let absent = (1..).zip(REFUSALS).filter(|&(number, _)| !met(number)).map(|(number, name)| format!("{number} {name}"));
    println!("No sheet ends with {}.", absent.collect::<Vec<_>>().join(", "));
    found.differences.sort();
    for difference in &found.differences {
        println!("{difference}");
    }
    println!(
        "{} sheets compared with a lister over nalgebra 0.35.0, {} differ, {} runs of the program failed; {} skipped, with a limit \
         above {MOST_PASSES} and a table not settled in so many passes ({:.0} s)",
        all.sheets,
        all.differing,
        found.failed,
        all.skipped,
        start.elapsed().as_secs_f64()
    );
    exit(if found.differences.is_empty() { 0 } else { 1 });
}
