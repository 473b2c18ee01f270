//! An independent planner for measuring cycles, for comparisons.
//!
//!   library --count N --seed S   the static library's answers against the planner's
//!   selftest                     the planner's own tests
//!   runs --count N --seed S      all runs of small tables, laid out at every period and with drawn gaps, against the
//!                                static library and against walks
//!   renamed --count N --seed S   tables in another order and by other names: the static library's answers, moved
//!   stats --count N --seed S     how often each refusal is met
//!   speed --count N --seed S --on TEXT --picture FILE
//!                                the time of the library's period search and of a simple planner's, on N tables of each
//!                                family, that of the library's gap, and how both searches grow; TEXT says what it is
//!                                measured on; where all answers agree the growth is drawn in FILE
//!   stack --count N --seed S -- PROGRAM ..
//!                                the smallest stack on which each function of the library answers, on largest tables;
//!                                PROGRAM .. is how this comparison is started, once for each try
//!   on-stack NAME BYTES --count N --seed S
//!                                one try: a function with so many bytes of stack
//!   bytes                        commented hexadecimal text on standard input to bytes
//!   text                         bytes on standard input to what the program fold prints for them
//!   ask WORD..                   words, and bytes on standard input, to what fold prints for them
//!   plan                         a table's bytes on standard input to its reply's bytes
//!   longest                      the bytes of a longest table: a hold in each operation, and a decider
//!   examples FILE..              files of commented hexadecimal text: each folds as its comments say
//!   bench FILE..                 files of bytes to what the program bench prints for them
//!   bytewise PROGRAM ARGUMENT..  a program with the bytes on standard input, which it reads one at a time
//!   words FILE.. -- PROGRAM ..   the program fold with words, about the tables in the files and others

mod against;
mod answers;
mod asking;
mod blamed;
mod bytewise;
mod counts;
mod deciders;
mod examples;
mod findings;
mod gaps;
mod generate;
mod hex;
mod holds;
mod judge;
mod kinds;
mod laid;
mod library;
mod picture;
mod pressed;
mod renamed;
mod runs;
mod selftest;
mod simple;
mod speed;
mod stack;
mod stats;
mod times;
mod walks;
mod words;

use generate::Seed;
use std::ffi::OsString;

/// How many inputs are drawn for the library unless a count is given.
const LIBRARY_COUNT: u64 = 200_000;

/// How many tables have all their runs laid out unless a count is given.
const RUNS_COUNT: u64 = 20_000;

/// How many tables are renamed unless a count is given.
const RENAMED_COUNT: u64 = 10_000;

/// The count and the seed that the arguments name, if they name any; none where
/// they are not understood.
fn options(args: &[String]) -> Option<(Option<u64>, Option<u64>)> {
    let (mut count, mut seed) = (None, None);
    for pair in args.chunks(2) {
        let number = pair.get(1).and_then(|arg| arg.parse().ok())?;
        match pair[0].as_str() {
            "--count" => count = Some(number),
            "--seed" => seed = Some(number),
            _ => return None,
        }
    }
    Some((count, seed))
}

/// A command that takes a count and a seed.
fn drawn(name: &str, args: &[String]) -> bool {
    let (count, seed) = match options(args) {
        Some((count, seed)) => (count, Seed::new(seed.unwrap_or(1))),
        None => return usage(),
    };
    match name {
        "library" => against::against(count.unwrap_or(LIBRARY_COUNT), seed),
        "runs" => laid::laid_command(count.unwrap_or(RUNS_COUNT), seed),
        "renamed" => renamed::renamed_command(count.unwrap_or(RENAMED_COUNT), seed),
        "stats" => stats::stats_command(count.unwrap_or(1000), seed),
        _ => usage(),
    }
}

fn command(name: &str, args: &[String]) -> bool {
    match (name, args.len()) {
        ("selftest", 0) => selftest::selftest_command(),
        ("bytes", 0) => examples::bytes_command(),
        ("text", 0) => examples::text_command(),
        ("plan", 0) => examples::plan_command(),
        ("longest", 0) => examples::longest_command(),
        ("examples", _) => examples::examples_command(args),
        ("bench", _) => examples::bench_command(args),
        ("bytewise", _) => bytewise::bytewise_command(args),
        ("words", _) => asking::words_command(args),
        ("speed", _) => speed::speed_command(args),
        ("stack", _) => stack::stack_command(args),
        ("on-stack", _) => stack::on_stack_command(args),
        _ => drawn(name, args),
    }
}

fn usage() -> bool {
    println!("library | runs | renamed | stats, each with --count N --seed S");
    println!(
        "selftest | bytes | text | plan | longest | ask WORD.. | examples FILE.. | bench FILE.."
    );
    println!("bytewise PROGRAM ARGUMENT.. | words FILE.. -- PROGRAM ARGUMENT..");
    println!("speed --count N --seed S --on TEXT --picture FILE");
    println!("stack --count N --seed S -- PROGRAM ARGUMENT..");
    println!("on-stack NAME BYTES --count N --seed S");
    false
}

/// A command with its arguments. The words that fold is asked with may be any bytes; all
/// other arguments are text.
fn commanded(name: OsString, args: Vec<OsString>) -> bool {
    if name == "ask" {
        return words::ask_command(args);
    }
    let args: Option<Vec<String>> = args.into_iter().map(|arg| arg.into_string().ok()).collect();
    match (name.to_str(), args) {
        (Some(name), Some(args)) => command(name, &args),
        _ => usage(),
    }
}

fn main() {
    let mut args = std::env::args_os().skip(1);
    let good = match args.next() {
        Some(name) => commanded(name, args.collect()),
        None => usage(),
    };
    std::process::exit(if good { 0 } else { 1 });
}
