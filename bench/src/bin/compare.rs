//! Compares the library with nalgebra on seeded tables, bit for bit, with every NaN taken as one:
//!
//!     compare [--quick] [--seeds N] [--threads N]
//!     compare --only KIND FAMILY SIDE SEED
use bench::kinds::{bits, real_bits, Kind, Real};
use bench::library::{Eigen, Form, Library};
use bench::point::Point;
use bench::random::Random;
use bench::reference::{matrix, reduced, solved, Answer};
use bench::tables::{demand, not_finite, table, Family, FAMILIES};
use simba::scalar::ComplexField;
use std::collections::BTreeMap;
use std::panic::catch_unwind;
use std::process::exit;
use std::sync::atomic::{AtomicUsize, Ordering};
use std::sync::Mutex;
use std::thread;
use std::time::Instant;

const KINDS: [&str; 4] = ["r64", "r32", "c64", "c32"];

#[derive(Clone, Copy)]
struct Case {
    kind: &'static str,
    family: Family,
    side: usize,
    seed: u64,
}

#[derive(Clone, Copy, Debug, PartialEq, Eq)]
enum End {
    Settled,
    NotSettled,
    Pair,
    /// An entry's size is not finite.
    Refused,
}

struct Found {
    end: End,
    passes: u32,
    /// Whether a value or a vector is no finite number.
    nan: bool,
    differences: Vec<String>,
}

/// Where two lists of bits differ.
fn differ(what: &str, ours: &[u64], theirs: &[u64], differences: &mut Vec<String>) {
    if ours.len() != theirs.len() {
        differences.push(format!("{what}: {} numbers and {}", ours.len(), theirs.len()));
    } else if let Some(i) = (0..ours.len()).find(|&i| ours[i] != theirs[i]) {
        let count = (0..ours.len()).filter(|&i| ours[i] != theirs[i]).count();
        differences.push(format!("{what}: {count} differ, first at {i}: {:016X} and {:016X}", ours[i], theirs[i]));
    }
}

fn settles<T: Kind>(answer: &Answer<T>) -> &'static str {
    match answer {
        Answer::Settled(_) => "settles",
        Answer::NotSettled => "does not settle",
        Answer::Panicked => "panics",
    }
}

fn compared<T: Library>(case: Case) -> Found {
    let Case { kind: _, family, side, seed } = case;
    // So that tables of one seed differ with family and side.
    let mut random = Random::new(seed.wrapping_mul(1_000_003).wrapping_add(side as u64 * 101 + family as u64));
    let cells = table::<T>(family, side, &mut random);
    let (tolerance, limit) = demand::<T::RealField>(side, &mut random);
    let mut differences = Vec::new();

    let mut form = Form::new(side, &cells);
    let mut eigen = Eigen::<T>::new(side);
    let reduction = T::reduce(side, &mut form);
    let outcome = T::solve(side, &cells, tolerance, limit, &mut eigen);
    if let Some((row, column)) = not_finite(side, &cells) {
        // nalgebra looks for no such entry.
        if [reduction, outcome].iter().any(|o| (o.number, o.row, o.column) != (3, row, column)) {
            differences.push(format!("not refused for its entry {row} {column}: {reduction:?} {outcome:?}"));
        }
        return Found { end: End::Refused, passes: 0, nan: false, differences };
    }

    if reduction.number != 0 {
        differences.push(format!("reduce answers {reduction:?}"));
    }
    let given = matrix(side, &cells);
    let tridiagonal = reduced(given.clone());
    differ("the reduced table", &bits(&form.table), &bits(tridiagonal.internal_tri().as_slice()), &mut differences);
    differ("the diagonal", &real_bits(&form.values), &real_bits(tridiagonal.diagonal().as_slice()), &mut differences);
    differ("the off-diagonal", &real_bits(&form.offs), &real_bits(tridiagonal.off_diagonal().as_slice()), &mut differences);
    differ("Q", &bits(&form.q), &bits(tridiagonal.q().as_slice()), &mut differences);

    let theirs = solved(&given, tolerance, limit);
    // A run of P passes settles at the limits above P alone, and so the count is compared without being told.
    let mut at = |limit: u32, wanted: &str| {
        let found = settles(&solved(&given, tolerance, limit));
        if found != wanted {
            differences.push(format!("{outcome:?}, but nalgebra {found} at limit {limit}"));
        }
    };
    let end = match (outcome.number, &theirs) {
        (0, Answer::Settled(other)) => {
            if outcome.count + 1 < limit {
                at(outcome.count + 1, "settles");
            }
            if outcome.count > 0 {
                at(outcome.count, "does not settle");
            }
            differ("values", &real_bits(&eigen.values), &real_bits(other.eigenvalues.as_slice()), &mut differences);
            differ("vectors", &bits(&eigen.vectors), &bits(other.eigenvectors.as_slice()), &mut differences);
            End::Settled
        }
        (7, Answer::NotSettled) => {
            if outcome.count != limit {
                differences.push(format!("{outcome:?} at limit {limit}"));
            }
            End::NotSettled
        }
        (8, Answer::Panicked) => {
            at(outcome.count + 1, "panics");
            if outcome.count > 0 {
                at(outcome.count, "does not settle");
            }
            End::Pair
        }
        (_, other) => {
            differences.push(format!("{outcome:?}, but nalgebra {}", settles(other)));
            End::NotSettled
        }
    };
    if !differences.is_empty() {
        differences.push(format!("(tolerance {tolerance:?}, limit {limit})"));
    }
    let finite = eigen.values.iter().all(|x| x.is_finite()) && eigen.vectors.iter().all(|x| x.is_finite());
    Found { end, passes: outcome.count, nan: !finite, differences }
}

fn run(case: Case) -> Found {
    match case.kind {
        "r64" => compared::<f64>(case),
        "r32" => compared::<f32>(case),
        "c64" => compared::<Point<f64>>(case),
        "c32" => compared::<Point<f32>>(case),
        other => panic!("no kind {other}"),
    }
}

/// What the checks refuse, each with the first number that is due, and nothing written.
fn refusals<T: Library>() -> (u32, Vec<String>) {
    let mut tried = 0;
    let mut differences = Vec::new();
    let fine = T::RealField::epsilon();
    let infinite = T::RealField::infinity();
    let minus = -T::RealField::power(0);
    let cells = vec![T::one(); 4];
    for (side, table, tolerance, limit, room, number) in [
        (0, 0, fine, 1, 0, 1),
        (513, 4, fine, 1, 2, 1),
        (usize::MAX, 4, fine, 1, 2, 1),
        (2, 3, fine, 1, 2, 2),
        (2, 4, fine, 1, 1, 2),
        (2, 4, fine, 1, 3, 2),
        (2, 4, minus, 1, 2, 4),
        (2, 4, infinite, 1, 2, 4),
        (2, 4, T::RealField::nan(), 1, 2, 4),
        (2, 4, fine, 0, 2, 5),
        (2, 4, fine, 1_000_001, 2, 5),
        (2, 4, minus, 0, 2, 4),
    ] {
        let mut eigen = Eigen::<T>::new(room);
        let outcome = T::solve(side, &cells[..table], tolerance, limit, &mut eigen);
        tried += 1;
        let blank = Eigen::<T>::new(room);
        if outcome.number != number || bits(&eigen.vectors) != bits(&blank.vectors) || real_bits(&eigen.values) != real_bits(&blank.values)
        {
            differences.push(format!("{} side {side}: {outcome:?}, and not {number}", T::name()));
        }
    }
    for (side, table, room, number) in [(0, 0, 0, 1), (513, 4, 2, 1), (2, 3, 2, 2), (2, 4, 1, 2), (2, 4, 3, 2)] {
        let mut form = Form::<T>::new(room, &cells[..table]);
        let before = form.clone();
        let outcome = T::reduce(side, &mut form);
        tried += 1;
        let same = bits(&form.table) == bits(&before.table) && bits(&form.q) == bits(&before.q) && bits(&form.signs) == bits(&before.signs);
        if outcome.number != number || !same {
            differences.push(format!("{} side {side}: {outcome:?}, and not {number}", T::name()));
        }
    }
    (tried, differences)
}

/// Of each family and side up to 64 as many tables as `seeds`, and of each larger side one.
fn cases(quick: bool, seeds: u64) -> Vec<Case> {
    let mut cases = Vec::new();
    let mut add = |families: &[Family], sides: &[usize], seeds: u64| {
        for kind in KINDS {
            for &family in families {
                for &side in sides {
                    for seed in 1..=seeds {
                        cases.push(Case { kind, family, side, seed });
                    }
                }
            }
        }
    };
    if quick {
        add(&FAMILIES, &[1, 2, 3, 4, 5, 7, 8, 9, 12, 16, 17, 33, 47, 64], 1);
    } else {
        // The largest first, so that no thread is left with one of them.
        add(&[Family::Dense, Family::RepeatedValues], &[512], 1);
        add(&FAMILIES, &[256, 200, 128, 100], 1);
        let sides: Vec<usize> = (1..=64).collect();
        add(&FAMILIES, &sides, seeds);
    }
    cases
}

fn usage() -> ! {
    eprintln!("usage: compare [--quick] [--seeds N] [--threads N] | compare --only KIND FAMILY SIDE SEED");
    exit(2)
}

fn parsed<T: std::str::FromStr>(word: Option<&String>) -> T {
    word.and_then(|w| w.parse().ok()).unwrap_or_else(|| usage())
}

fn main() {
    // A panic of nalgebra is an answer here.
    std::panic::set_hook(Box::new(|_| {}));
    let words: Vec<String> = std::env::args().skip(1).collect();
    let at = |name: &str| words.iter().position(|w| w == name);
    let cases = match at("--only") {
        Some(i) => {
            let kind: String = parsed(words.get(i + 1));
            let family: String = parsed(words.get(i + 2));
            let kind = KINDS.into_iter().find(|k| *k == kind).unwrap_or_else(|| usage());
            let family = FAMILIES.into_iter().find(|f| f.name() == family).unwrap_or_else(|| usage());
            vec![Case { kind, family, side: parsed(words.get(i + 3)), seed: parsed(words.get(i + 4)) }]
        }
        None => cases(at("--quick").is_some(), at("--seeds").map_or(5, |i| parsed(words.get(i + 1)))),
    };
    let threads = match at("--threads") {
        Some(i) => parsed(words.get(i + 1)),
        None => thread::available_parallelism().map_or(1, |n| n.get()),
    };

    let start = Instant::now();
    let next = AtomicUsize::new(0);
    let found: Mutex<Vec<Option<Found>>> = Mutex::new(cases.iter().map(|_| None).collect());
    thread::scope(|scope| {
        for _ in 0..threads {
            scope.spawn(|| loop {
                let i = next.fetch_add(1, Ordering::Relaxed);
                let Some(&case) = cases.get(i) else { break };
                let answer = catch_unwind(|| run(case)).ok();
                found.lock().expect("no thread panics with the lock")[i] = answer;
            });
        }
    });

    #[derive(Default)]
    struct Count {
        tables: u32,
        settled: u32,
        not_settled: u32,
        pair: u32,
        refused: u32,
        differing: u32,
        passes: u64,
        nan: u32,
        largest: usize,
    }
    let mut counts: BTreeMap<(usize, usize), Count> = BTreeMap::new();
    let mut lines = Vec::new();
    for (case, answer) in cases.iter().zip(found.into_inner().expect("no thread panics with the lock")) {
        let kind = KINDS.iter().position(|k| *k == case.kind).unwrap_or(0);
        let count = counts.entry((kind, case.family as usize)).or_default();
        let lost = Found { end: End::Refused, passes: 0, nan: false, differences: vec!["the comparison itself panicked".to_owned()] };
        let found = answer.unwrap_or(lost);
        count.tables += 1;
        count.largest = count.largest.max(case.side);
        match found.end {
            End::Settled => count.settled += 1,
            End::NotSettled => count.not_settled += 1,
            End::Pair => count.pair += 1,
            End::Refused => count.refused += 1,
        }
        count.passes += u64::from(found.passes);
        count.nan += u32::from(found.nan);
        if !found.differences.is_empty() {
            count.differing += 1;
            lines.push(format!(
                "DIFFERS --only {} {} {} {}: {}",
                case.kind,
                case.family.name(),
                case.side,
                case.seed,
                found.differences.join("; ")
            ));
        }
    }

    println!("| Kind | Family | Tables | Largest side | Settled | Not settled | Pair | Refused | Not finite | Passes | Differing |");
    println!("|---|---|---|---|---|---|---|---|---|---|---|");
    let mut tables = 0;
    let mut differing = 0;
    for ((kind, family), c) in &counts {
        println!(
            "| {} | {} | {} | {} | {} | {} | {} | {} | {} | {} | {} |",
            KINDS[*kind],
            FAMILIES[*family].name(),
            c.tables,
            c.largest,
            c.settled,
            c.not_settled,
            c.pair,
            c.refused,
            c.nan,
            c.passes,
            c.differing
        );
        tables += c.tables;
        differing += c.differing;
    }
    let mut tried = 0;
    for (count, differences) in [refusals::<f64>(), refusals::<f32>(), refusals::<Point<f64>>(), refusals::<Point<f32>>()] {
        tried += count;
        differing += differences.len() as u32;
        lines.extend(differences.into_iter().map(|d| format!("DIFFERS refusals: {d}")));
    }
    for line in &lines {
        println!("{line}");
    }
    println!(
        "{tables} tables compared with nalgebra 0.35.0, {tried} calls that are to be refused, {differing} differ ({:.0} s)",
        start.elapsed().as_secs_f64()
    );
    exit(if differing == 0 { 0 } else { 1 });
}
