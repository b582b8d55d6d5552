//! Compares the proved parser with upstream's. The script tools/compare builds
//! and runs this; README.md says what is compared.

mod ours;

use std::process::ExitCode;
use std::sync::Mutex;
use std::sync::atomic::{AtomicUsize, Ordering};
use std::time::Instant;

use comparer::compare::{Comparer, Finding, Parser};
use comparer::families::{Family, Part};
use comparer::question::{Entry, Question, Row, read_line};
use comparer::tally::Tally;
use ours::{InWords, Ours};

const USAGE: &str = "\
Compares the proved parser with upstream's, row by row.

usage: compare [--seed N] [--rows N] [--only FAMILY] [--threads N] [--words]
       compare --ask 'ENTRY CURSOR BASE FLAGS START WORDKIND KINDS TYPES SLOTS'

  --seed N       which random rows are made (1)
  --rows N       how many rows are made at random (100,000,000)
  --only FAMILY  leave the others out: limits, short, four, value-types, dozens, six, rules, damaged, any, slots,
                 commas, deep or inputs (all)
  --threads N    how many run at once (as many as there are processors)
  --words        ask the entries with a word a node (those with two columns)
  --ask ..       print both answers to one question: ENTRY is 0 to 4 for expression, type, constant, struct and word,
                 KINDS and TYPES have two hexadecimal digits a token, and `-` stands for none, or for zeros

The status is 0 if there is no difference, 1 if there is one, and 2 if an option is wrong.";

struct Options {
    seed: u64,
    /// How many rows are made at random.
    rows: u64,
    only: Option<Family>,
    threads: usize,
    /// Whether the entries with a word a node are asked.
    words: bool,
}

fn main() -> ExitCode {
    let arguments: Vec<String> = std::env::args().skip(1).collect();
    let words: Vec<&str> = arguments.iter().map(String::as_str).collect();
    match words[..] {
        ["--help"] => {
            println!("{USAGE}");
            ExitCode::SUCCESS
        }
        ["--ask", line] => show(line).unwrap_or_else(wrong),
        ["--ask", ..] => wrong("--ask takes one word, the question in quotes".into()),
        _ => options(&words).map_or_else(wrong, |options| run(&options)),
    }
}

fn wrong(why: String) -> ExitCode {
    eprintln!("compare: {why}\n`tools/compare --help` shows what can be asked.");
    ExitCode::from(2)
}

/// Prints both answers to one question.
fn show(line: &str) -> Result<ExitCode, String> {
    let (kinds, types, question) = read_line(line)?;
    let row = Row {
        kinds: &kinds,
        types: &types,
    };
    let text = oracle::with_large_stack(|| Comparer::new(Ours).show(row, question));
    print!("difference: {text}");
    Ok(ExitCode::SUCCESS)
}

fn run(options: &Options) -> ExitCode {
    let begun = Instant::now();
    let short_replies = short_replies_are_refused();
    let (tallies, findings) = compare_all(options);
    for Finding(text) in &findings {
        println!("difference: {text}");
    }
    let differences = print_summary(options, &tallies);
    println!(
        "replies of fewer than six places: {}",
        if short_replies {
            "not taken, nothing written"
        } else {
            "DIFFERENT"
        }
    );
    println!("seconds: {}", begun.elapsed().as_secs());
    if differences == 0 && short_replies {
        println!("no difference");
        ExitCode::SUCCESS
    } else {
        println!("{differences} differences");
        ExitCode::FAILURE
    }
}

fn options(arguments: &[&str]) -> Result<Options, String> {
    let mut options = Options {
        seed: 1,
        rows: 100_000_000,
        only: None,
        threads: std::thread::available_parallelism().map_or(1, usize::from),
        words: false,
    };
    let mut arguments = arguments.iter();
    while let Some(&argument) = arguments.next() {
        let mut value = || {
            let value = arguments.next();
            value
                .copied()
                .ok_or(format!("{argument} has no value after it"))
        };
        match argument {
            "--seed" => options.seed = number(argument, value()?)?,
            "--rows" => options.rows = number(argument, value()?)?,
            "--threads" => options.threads = number(argument, value()?)?,
            "--only" => options.only = Some(family(value()?)?),
            "--words" => options.words = true,
            _ => return Err(format!("there is no option `{argument}`")),
        }
    }
    if options.threads == 0 {
        return Err("--threads is 0, and one is the least".into());
    }
    Ok(options)
}

fn number<T: std::str::FromStr>(option: &str, text: &str) -> Result<T, String> {
    text.parse()
        .map_err(|_| format!("`{text}` after {option} is no number that it can have"))
}

fn family(name: &str) -> Result<Family, String> {
    let named = Family::ALL.into_iter().find(|family| family.name() == name);
    named.ok_or_else(|| {
        let names: Vec<_> = Family::ALL.iter().map(|family| family.name()).collect();
        format!(
            "there is no family `{name}`; there are {}",
            names.join(", ")
        )
    })
}

/// Runs all parts, each thread taking the next one that is left.
fn compare_all(options: &Options) -> (Vec<(Family, Tally)>, Vec<Finding>) {
    let families = Family::ALL
        .into_iter()
        .filter(|&family| options.only.is_none_or(|only| only == family));
    let parts: Vec<Part> = families
        .clone()
        .flat_map(|family| family.parts(options.rows))
        .collect();
    let tallies = families.map(|family| (family, Tally::new())).collect();
    let results = Mutex::new((tallies, Vec::new()));
    let taken = AtomicUsize::new(0);
    std::thread::scope(|scope| {
        for _ in 0..options.threads {
            scope.spawn(|| {
                oracle::with_large_stack(|| match options.words {
                    false => work(Ours, options.seed, &parts, &taken, &results),
                    true => work(InWords::new(), options.seed, &parts, &taken, &results),
                })
            });
        }
    });
    results.into_inner().expect("no thread panicked")
}

type Results = Mutex<(Vec<(Family, Tally)>, Vec<Finding>)>;

fn work<P: Parser>(parser: P, seed: u64, parts: &[Part], taken: &AtomicUsize, results: &Results) {
    let mut comparer = Comparer::new(parser);
    while let Some(part) = parts.get(taken.fetch_add(1, Ordering::Relaxed)) {
        part.run(seed, &mut comparer);
        let (tallies, _) = &mut *results.lock().expect("no thread panicked");
        for (family, tally) in tallies {
            if *family == part.family {
                tally.add(&comparer.tally);
            }
        }
        comparer.tally = Tally::new();
    }
    let (_, findings) = &mut *results.lock().expect("no thread panicked");
    findings.append(&mut comparer.findings);
}

/// Prints the table and gives the number of differences.
fn print_summary(options: &Options, tallies: &[(Family, Tally)]) -> u64 {
    println!("seed {}, {} random rows", options.seed, options.rows);
    println!(
        "{:12} {:>12} {:>12} {:>12} {:>12} {:>14} {:>11}",
        "family", "rows", "questions", "accepted", "refused", "nodes", "differences"
    );
    let mut all = Tally::new();
    for (family, tally) in tallies {
        print_line(family.name(), tally);
        all.add(tally);
    }
    print_line("all", &all);
    let numbers: Vec<String> = (1..all.by_number.len())
        .filter(|&number| all.by_number[number] > 0)
        .map(|number| format!("{number}: {}", all.by_number[number]))
        .collect();
    println!("refused by number: {}", numbers.join(", "));
    all.differences
}

fn print_line(name: &str, tally: &Tally) {
    println!(
        "{name:12} {:>12} {:>12} {:>12} {:>12} {:>14} {:>11}",
        tally.rows,
        tally.questions,
        tally.accepted(),
        tally.refused(),
        tally.nodes,
        tally.differences
    );
}

/// With fewer than six places for the reply an entry must give false and write
/// nothing; with more, only the first six.
fn short_replies_are_refused() -> bool {
    let row = Row {
        kinds: &[53, 20, 0],
        types: &[0; 3],
    };
    let mark = u32::MAX;
    Entry::ALL.into_iter().all(|entry| {
        (0..=8).all(|places| {
            let question = Question::new(entry, 8);
            let mut kinds = [200; 8];
            let mut loads = [mark; 8];
            let mut reply = [mark; 8];
            let done = ours::call(row, &question, &mut kinds, &mut loads, &mut reply[..places]);
            let kept = kinds == [200; 8] && loads == [mark; 8] && reply == [mark; 8];
            done == (places >= 6) && (done || kept) && reply[6..] == [mark; 2]
        })
    })
}
