//! Times the library beside nalgebra, and beside what else this machine has:
//!
//!     speed [--seconds N]
//!
//! N is the time for each line of the tables. Contestants take turns, batch by batch, so that what else the machine does falls on
//! all of them; a time is the median of the batches, of one run with the copy of its table.
use bench::kinds::{Kind, Real};
use bench::library::{Eigen, Form, Library};
use bench::point::Point;
use bench::random::Random;
use bench::reference::{matrix, reduced};
use bench::tables::{table, Family};
use nalgebra::SymmetricEigen;
use std::any::Any;
use std::hint::black_box;
use std::time::{Duration, Instant};

mod others;
use others::others;

type Contestant<'a> = (&'static str, Box<dyn FnMut() + 'a>);

/// Of each contestant the median and the least of its batches, in seconds for one run.
fn timed(contestants: &mut [Contestant], seconds: f64) -> Vec<(f64, f64)> {
    let batch = 0.004;
    let runs: Vec<u32> = contestants
        .iter_mut()
        .map(|(_, run)| {
            run();
            let start = Instant::now();
            run();
            (batch / start.elapsed().as_secs_f64().max(1e-7)).clamp(1.0, 10_000.0) as u32
        })
        .collect();
    let mut times = vec![Vec::new(); contestants.len()];
    let start = Instant::now();
    while times[0].len() < 5 || start.elapsed() < Duration::from_secs_f64(seconds) {
        for (i, (_, run)) in contestants.iter_mut().enumerate() {
            let start = Instant::now();
            for _ in 0..runs[i] {
                run();
            }
            times[i].push(start.elapsed().as_secs_f64() / f64::from(runs[i]));
        }
    }
    times
        .iter_mut()
        .map(|list| {
            list.sort_by(f64::total_cmp);
            (list[list.len() / 2], list[0])
        })
        .collect()
}

/// Milliseconds, with three digits or more.
fn shown(seconds: f64) -> String {
    let ms = seconds * 1e3;
    let digits = if ms < 0.1 {
        4
    } else if ms < 1.0 {
        3
    } else if ms < 10.0 {
        2
    } else {
        1
    };
    format!("{ms:.digits$}")
}

fn line(kind: &str, side: usize, contestants: &mut [Contestant], seconds: f64) {
    let times = timed(contestants, seconds);
    let (ours, least) = times[0];
    let mut text = format!("| {kind} | {side} | {} ({})", shown(ours), shown(least));
    for (median, least) in &times[1..] {
        text += &format!(" | {} ({}) | {:.2}", shown(*median), shown(*least), ours / median);
    }
    println!("{text} |");
}

fn heading(names: &[&str]) {
    let mut first = "| Kind | Side | Library".to_owned();
    let mut second = "|---|---|---".to_owned();
    for name in names {
        first += &format!(" | {name} | Library / {name}");
        second += "|---|---";
    }
    println!("{first} |\n{second}|");
}

fn dense<T: Kind>(side: usize) -> Vec<T> {
    table(Family::Dense, side, &mut Random::new(side as u64))
}

fn reductions<T: Library>(seconds: f64) {
    for side in [32, 128, 512] {
        let cells = dense::<T>(side);
        let given = matrix(side, &cells);
        let blank = Form::new(side, &cells);
        let mut form = blank.clone();
        let ours = || {
            form.table.copy_from_slice(&cells);
            assert_eq!(T::reduce(side, &mut form).number, 0);
            black_box(&form);
        };
        let theirs = || {
            black_box(reduced(given.clone()).unpack());
        };
        let mut contestants: Vec<Contestant> = vec![("Library", Box::new(ours)), ("nalgebra", Box::new(theirs))];
        line(&T::name(), side, &mut contestants, seconds);
    }
}

fn solutions<T: Library>(seconds: f64) {
    let fine = T::RealField::epsilon();
    for side in [8, 32, 128, 512] {
        let cells = dense::<T>(side);
        let given = matrix(side, &cells);
        let mut room = Eigen::<T>::new(side);
        let ours = || {
            assert_eq!(T::solve(side, &cells, fine, 1_000_000, &mut room).number, 0);
            black_box(&room);
        };
        let theirs = || {
            let answer = SymmetricEigen::try_new(given.clone(), fine, 1_000_000);
            assert!(black_box(answer).is_some());
        };
        let mut contestants: Vec<Contestant> = vec![("Library", Box::new(ours)), ("nalgebra", Box::new(theirs))];
        // The others take tables of binary64.
        if let Some(cells) = (&cells as &dyn Any).downcast_ref::<Vec<f64>>() {
            for other in others() {
                let mut values = vec![0.0; side];
                let mut vectors = vec![0.0; side * side];
                contestants.push((
                    other.name,
                    Box::new(move || {
                        (other.solve)(side, cells, &mut values, &mut vectors);
                        black_box((&values, &vectors));
                    }),
                ));
            }
        }
        line(&T::name(), side, &mut contestants, seconds);
    }
}

fn load(when: &str) {
    if let Ok(text) = std::fs::read_to_string("/proc/loadavg") {
        let words: Vec<&str> = text.split(' ').take(3).collect();
        println!("load {when}: {}", words.join(" "));
    }
}

fn main() {
    let words: Vec<String> = std::env::args().skip(1).collect();
    let seconds = match words.as_slice() {
        [] => 4.0,
        [name, n] if name == "--seconds" => n.parse().expect("a number of seconds"),
        _ => {
            eprintln!("usage: speed [--seconds N]");
            std::process::exit(2)
        }
    };
    load("at the start");
    println!("\nMilliseconds of one run, the median with the least in brackets.");
    println!("\n## Reduce and assemble\n");
    heading(&["nalgebra"]);
    reductions::<f64>(seconds);
    reductions::<f32>(seconds);
    reductions::<Point<f64>>(seconds);
    reductions::<Point<f32>>(seconds);
    println!("\n## Values and vectors\n");
    let mut names = vec!["nalgebra"];
    names.extend(others().iter().map(|other| other.name));
    heading(&names);
    solutions::<f64>(seconds);
    if names.len() > 1 {
        println!("\n## Values and vectors of the other kinds\n");
        heading(&["nalgebra"]);
    }
    solutions::<f32>(seconds);
    solutions::<Point<f64>>(seconds);
    solutions::<Point<f32>>(seconds);
    println!();
    load("at the end");
}
