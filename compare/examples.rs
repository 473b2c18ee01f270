//! The tables of `examples/`: hexadecimal text whose comments say what `fold` prints, without
//! words and with them, the bytes made from it, and what the program `bench` prints for them.

use crate::answers::{self, plan};
use crate::generate::{self, Seed};
use crate::hex::bytes_in;
use crate::judge::{bytes_of, judge, Table};
use crate::words::{self, Word};
use crate::{pressed, runs, walks};
use std::io::{Read, Write};
use std::path::Path;

/// Document 01's own example.
pub const K1: &str = include_str!("../examples/k01.hex");

/// The longest table whose runs are laid out one by one.
const TINY: u64 = 10;

// ---- standard input to standard output ----------------------------------

/// All of standard input.
pub fn input() -> Vec<u8> {
    let mut bytes = Vec::new();
    std::io::stdin()
        .read_to_end(&mut bytes)
        .expect("standard input can be read");
    bytes
}

/// Commented hexadecimal text on standard input, its bytes on standard output.
pub fn bytes_command() -> bool {
    let text = String::from_utf8(input()).ok();
    match text.and_then(|text| bytes_in(&text)) {
        Some(bytes) => std::io::stdout().write_all(&bytes).is_ok(),
        None => {
            eprintln!("standard input is not hexadecimal text");
            false
        }
    }
}

/// Bytes on standard input, what `fold` prints for them on standard output.
pub fn text_command() -> bool {
    print!("{}", answers::text(&input()));
    true
}

/// A table on standard input, its reply's bytes on standard output.
pub fn plan_command() -> bool {
    match answers::fold(&input()) {
        Ok(reply) => std::io::stdout()
            .write_all(&answers::reply_bytes(&reply))
            .is_ok(),
        Err(refusal) => {
            eprint!("{}", answers::refusal_text(&refusal));
            false
        }
    }
}

/// The bytes of a longest table, always the same, on standard output.
pub fn longest_command() -> bool {
    let table = generate::longest_held(&mut Seed::new(1));
    std::io::stdout().write_all(&bytes_of(&table)).is_ok()
}

// ---- what the comments say ----------------------------------------------

/// The words of a line "fold WORDS prints:", none of them in "fold prints:".
fn words_in(line: &str) -> Option<Vec<Word>> {
    let words = line.strip_prefix("# fold ")?.strip_suffix("prints:")?;
    let bytes = |word: &str| word.as_bytes().to_vec();
    Some(words.split_whitespace().map(bytes).collect())
}

/// What the comments say that `fold` prints, with the words that it is asked with: the indented
/// lines below each such line.
fn promised(text: &str) -> Vec<(Vec<Word>, String)> {
    let lines: Vec<&str> = text.lines().collect();
    let below = |at: usize| {
        let answer = lines[at + 1..]
            .iter()
            .map_while(|line| line.strip_prefix("#   "));
        answer.map(|line| format!("{}\n", line)).collect()
    };
    let asked = lines.iter().enumerate();
    asked
        .filter_map(|(at, line)| words_in(line).map(|words| (words, below(at))))
        .collect()
}

/// `fold` without words is among what is promised, and all that is promised is so.
fn is_kept(promises: &[(Vec<Word>, String)], bytes: &[u8]) -> bool {
    let nothing = String::new();
    let kept = |(words, text): &(Vec<Word>, String)| {
        words::printed(words, bytes) == (text.clone(), nothing.clone())
    };
    promises.iter().any(|(words, _)| words.is_empty()) && promises.iter().all(kept)
}

/// The table's period is the smallest one at which every run is right, laid out one by one; and its gap is the one that
/// runs show.
fn is_found_by_runs(table: &Table) -> bool {
    runs::period(table) == walks::period(table) && pressed::is_found_by_runs(table)
}

/// The bytes are folded, and asked about, as the comments say. A table is written as it is read, and the period and the
/// gap of a tiny one are also found by laying out its runs.
fn folds_as_promised(text: &str) -> bool {
    bytes_in(text).map_or(false, |bytes| {
        let table_is_good = judge(&bytes).map_or(true, |table| {
            bytes_of(&table) == bytes && (table.len > TINY || is_found_by_runs(&table))
        });
        table_is_good && is_kept(&promised(text), &bytes)
    })
}

/// Every file folds as its comments say.
pub fn examples_command(files: &[String]) -> bool {
    let folds = |file: &String| {
        let text = std::fs::read_to_string(file).unwrap_or_default();
        let good = folds_as_promised(&text);
        if !good {
            println!("{} does not fold as its comments say", file);
        }
        good
    };
    let good = files.iter().filter(|file| folds(file)).count();
    println!(
        "{} of {} examples fold as their comments say",
        good,
        files.len()
    );
    good == files.len() && good > 0
}

// ---- the program bench --------------------------------------------------

/// The lines for K1 into a buffer of so many bytes.
fn k1_into(room: usize) -> String {
    let k1 = bytes_in(K1).expect("the example is hexadecimal text");
    let said = match plan(&k1, &mut vec![0; room]) {
        Ok(count) => format!("wrote {}\n", count),
        Err(refusal) => answers::refusal_text(&refusal),
    };
    format!("k01 into {} bytes\n{}", room, said)
}

/// The lines for the bytes in a file: its name, and what `fold` prints.
fn bench_case(file: &str) -> Option<String> {
    let name = Path::new(file).file_stem()?.to_str()?;
    let bytes = std::fs::read(file).ok()?;
    Some(format!("{}\n{}", name, answers::text(&bytes)))
}

/// What the program `bench` prints for these files.
pub fn bench_command(files: &[String]) -> bool {
    let cases: Option<String> = files.iter().map(|file| bench_case(file)).collect();
    match cases {
        Some(cases) => {
            print!("{}{}{}", cases, k1_into(11), k1_into(12));
            true
        }
        None => {
            eprintln!("a file cannot be read");
            false
        }
    }
}
