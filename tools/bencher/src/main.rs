//! Times this parser beside the Rust's. `tools/bench` runs it; `bencher --help` says how by itself.
//!
//! Both parse the same rows in one process. The samples of all rows and sides alternate, so that
//! what disturbs the machine for a while disturbs all of them alike. The tokens of a row are made
//! before, and nodes are not read. No buffer is cleared, before or between parses.

mod placement;
mod rows;
mod sides;
mod stack;

use std::process::exit;
use std::time::Instant;

use rows::Case;
use sides::{Buffers, Ready, SIDES, Side};

const USAGE: &str = "\
usage: bencher [SAMPLES]                times, from so many samples of each row and side (501)
       bencher --ratios SAMPLES         ratios to the Rust's times of the fastest 5%, one row a line:
                                        name, ours, words
       bencher --names                  the rows that are timed, one a line
       bencher --count ROW SIDE PARSES  parses a row (a line of --names, from 0) by a side (rust,
                                        ours, words, checks) so many times, for callgrind
       bencher --stack                  the stack that the deepest rows use";

/// A sample is as many parses as take about this long.
const SAMPLE_NANOSECONDS: f64 = 200_000.0;

/// A case with the times of its samples, for each side.
struct Timed {
    case: Case,
    ready: Ready,
    nodes: usize,
    /// How many parses make a sample, for each side.
    parses: [u32; SIDES.len()],
    times: [Vec<f64>; SIDES.len()],
}

impl Timed {
    fn new(case: Case, buffers: &mut Buffers) -> Timed {
        let ready = Ready::new(&case);
        let nodes = ready.compare(buffers);
        let mut timed = Timed {
            case,
            ready,
            nodes,
            parses: [5; SIDES.len()],
            times: Default::default(),
        };
        for side in 0..SIDES.len() {
            let once = timed.sample(side, buffers) * timed.case.rows.len() as f64;
            timed.parses[side] = (SAMPLE_NANOSECONDS / once).ceil().max(1.0) as u32;
        }
        timed
    }

    /// Nanoseconds a row, over one sample. The parse before it is not timed: it brings rows and
    /// buffers back into the caches.
    fn sample(&self, side: usize, buffers: &mut Buffers) -> f64 {
        let parses = self.parses[side];
        self.ready.parse(SIDES[side], buffers);
        let start = Instant::now();
        for _ in 0..parses {
            self.ready.parse(SIDES[side], buffers);
        }
        start.elapsed().as_nanos() as f64 / f64::from(parses) / self.case.rows.len() as f64
    }

    /// The times of the sides at a part of their sorted samples: 0.5 gives the medians.
    fn at(&self, part: f64) -> [f64; SIDES.len()] {
        let place = |times: &Vec<f64>| ((times.len() - 1) as f64 * part).round() as usize;
        self.times.each_ref().map(|times| times[place(times)])
    }

    /// Tokens a row.
    fn tokens(&self) -> usize {
        self.case.tokens() / self.case.rows.len()
    }
}

/// Samples of all cases and sides in turn.
fn time(cases: Vec<Case>, samples: usize) -> Vec<Timed> {
    let buffers = &mut Buffers::new();
    let timed = cases.into_iter().map(|case| Timed::new(case, buffers));
    let mut timed: Vec<Timed> = timed.collect();
    for round in 0..samples {
        for case in &mut timed {
            for turn in 0..SIDES.len() {
                let side = (turn + round) % SIDES.len();
                let time = case.sample(side, buffers);
                case.times[side].push(time);
            }
        }
    }
    for times in timed.iter_mut().flat_map(|case| &mut case.times) {
        times.sort_by(f64::total_cmp);
    }
    timed
}

fn print_times(title: &str, timed: &[Timed]) {
    println!("\n{title}\n");
    println!(
        "| row | tokens | nodes | Rust, ns | ours, ns | ratio | words, ns | ratio | checks, ns | ours without, ns | ratio | fastest 5%: Rust, ns | ours | ratio | words | ratio |"
    );
    println!("|---|---|---|---|---|---|---|---|---|---|---|---|---|---|---|---|");
    for case in timed {
        let [rust, ours, words, checks] = case.at(0.5);
        let [rust5, ours5, words5, _] = case.at(0.05);
        println!(
            "| {} | {} | {} | {rust:.0} | {ours:.0} | {:.2} | {words:.0} | {:.2} | {checks:.0} | {:.0} | {:.2} | {rust5:.0} | {ours5:.0} | {:.2} | {words5:.0} | {:.2} |",
            case.case.name,
            case.tokens(),
            case.nodes / case.case.rows.len(),
            ours / rust,
            words / rust,
            ours - checks,
            (ours - checks) / rust,
            ours5 / rust5,
            words5 / rust5,
        );
    }
}

/// Ratios to the Rust's times, of the fastest 5%, which other work on the machine disturbs least.
fn print_ratios(timed: &[Timed]) {
    for case in timed {
        let [rust, ours, words, _] = case.at(0.05);
        let name = &case.case.name;
        println!("{name}\t{:.4}\t{:.4}", ours / rust, words / rust);
    }
}

fn print_sizes(kinds: &[&[Timed]]) {
    println!(
        "\nNanoseconds a token, ours with checks / the Rust, medians, by the size of the row\n"
    );
    println!("| tokens | sums | calls | structs | mixed |");
    println!("|---|---|---|---|---|");
    for size in 0..kinds[0].len() {
        print!("| {} |", kinds[kinds.len() - 1][size].tokens());
        for kind in kinds {
            let [rust, ours, ..] = kind[size].at(0.5);
            let tokens = kind[size].tokens() as f64;
            print!(" {:.2} / {:.2} |", ours / tokens, rust / tokens);
        }
        println!();
    }
}

fn print_stack() {
    let buffers = &mut Buffers::new();
    let empty = stack::used(|| ());
    println!("| row | ours, bytes | words, bytes | Rust, bytes |");
    println!("|---|---|---|---|");
    for case in rows::deep() {
        let ready = Ready::new(&case);
        let of = |side, buffers: &mut Buffers| stack::used(|| ready.parse(side, buffers)) - empty;
        let ours = of(Side::Ours, buffers);
        let words = of(Side::Words, buffers);
        let rust = of(Side::Rust, buffers);
        println!("| {} | {ours} | {words} | {rust} |", case.name);
    }
}

fn count(row: usize, side: &str, parses: u32) -> Option<()> {
    let case = rows::goals().into_iter().chain(rows::others()).nth(row)?;
    let side = SIDES[["rust", "ours", "words", "checks"]
        .iter()
        .position(|&name| name == side)?];
    let ready = Ready::new(&case);
    let buffers = &mut Buffers::new();
    for _ in 0..parses {
        ready.parse(side, buffers);
    }
    Some(())
}

fn run(arguments: &[&str]) -> Option<()> {
    match *arguments {
        ["--names"] => {
            for case in rows::goals().into_iter().chain(rows::others()) {
                println!(
                    "{}\t{}\t{}",
                    case.name,
                    case.rows.len(),
                    case.tokens() / case.rows.len()
                );
            }
        }
        ["--count", row, side, parses] => {
            count(row.parse().ok()?, side, parses.parse().ok()?)?;
        }
        ["--ratios", samples] => {
            let cases = rows::goals().into_iter().chain(rows::others()).collect();
            print_ratios(&time(cases, samples.parse().ok()?));
        }
        ["--stack"] => print_stack(),
        [] | [_] => {
            let samples = arguments
                .first()
                .map_or(Ok(501), |text| text.parse())
                .ok()?;
            let goals = rows::goals();
            let goal_count = goals.len();
            let timed = time(
                goals.into_iter().chain(rows::others()).collect(),
                samples.max(1),
            );
            let (goals, others) = timed.split_at(goal_count);
            print_times("Rows of the goal: medians", goals);
            print_times("Other entries: medians", others);
            let timed = time(
                rows::sizes().into_iter().flatten().collect(),
                samples.max(1),
            );
            print_sizes(&timed.chunks(10).collect::<Vec<_>>());
        }
        _ => return None,
    }
    Some(())
}

fn main() {
    let arguments: Vec<String> = std::env::args().skip(1).collect();
    let arguments: Vec<&str> = arguments.iter().map(String::as_str).collect();
    if oracle::with_large_stack(|| run(&arguments)).is_none() {
        eprintln!("{USAGE}");
        exit(2);
    }
}
