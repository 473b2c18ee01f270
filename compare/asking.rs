//! The program `fold` with words, run and held to what it should print on standard output and
//! on standard error.

use crate::answers::{fold, reply_bytes, Reply, Row};
use crate::examples::K1;
use crate::generate::{self, Seed};
use crate::hex::{bytes_in, hex};
use crate::judge::{bytes_of, judge, Table};
use crate::walks;
use crate::words::{printed, question_in, Word, LIST};
use std::collections::BTreeMap;
use std::ffi::OsString;
use std::io::Write;
use std::os::unix::ffi::OsStringExt;
use std::process::{Child, Command, Output, Stdio};

/// How many differences are printed; the others are only counted.
const MOST_PRINTED: u64 = 5;

/// How many lines of words are drawn.
const DRAWN: u64 = 100;

/// How many of the programs run side by side.
const BESIDE: usize = 2;

// ---- words and input ----------------------------------------------------

/// A line of words, and the bytes on standard input.
struct Case {
    words: Vec<Word>,
    input: Vec<u8>,
}

fn case(words: &[&str], input: &[u8]) -> Case {
    Case {
        words: words.iter().map(|word| word.as_bytes().to_vec()).collect(),
        input: input.to_vec(),
    }
}

/// The tables that more than one part asks about.
fn k1() -> Vec<u8> {
    bytes_in(K1).expect("hexadecimal text")
}

fn k3() -> Vec<u8> {
    bytes_in(include_str!("../examples/k03.hex")).expect("hexadecimal text")
}

fn k7() -> Vec<u8> {
    bytes_in(include_str!("../examples/k07.hex")).expect("hexadecimal text")
}

/// The reply of an accepted table.
fn reply_of(table: &[u8]) -> Vec<u8> {
    reply_bytes(&fold(table).expect("an accepted table"))
}

// ---- about each table ---------------------------------------------------

/// The boards and the values at 0, at 1, on both sides of the period and of p, and at a number
/// whose low 64 bits are the period.
fn about_periods(bytes: &[u8], period: u64, p: u64, cases: &mut Vec<Case>) {
    let near = [0, 1, period - 1, period, p, p + 1].map(u128::from);
    let beyond = (1 << 64) + u128::from(period);
    let mut asked = [&near[..], &[beyond]].concat();
    asked.sort_unstable();
    asked.dedup();
    for q in asked {
        let q = q.to_string();
        cases.push(case(&["boards", &q], bytes));
        cases.push(case(&["values", &q], bytes));
    }
}

/// A margin that is as low as any, one that is high, and one that is out of range, at each of
/// the four places in turn.
fn about_margins(bytes: &[u8], table: &Table, turn: usize, cases: &mut Vec<Case>) {
    let (ops, p) = (table.ops.len() as u64, table.len);
    let numbered = || (0..).zip(&table.ops);
    let (last_end, _) = numbered().max_by_key(|(_, op)| op.end()).expect("one");
    let (first_start, _) = numbered().min_by_key(|(_, op)| op.start).expect("one");
    let out_of_range = [
        [ops, ops, 0, 0],
        [ops - 1, ops, 1001, p + 1],
        [0, ops - 1, 1001, 0],
        [ops - 1, 0, 1000, p + 1],
    ];
    for asked in [
        [last_end, first_start, 1, 1],
        [first_start, last_end, 1000, p],
        out_of_range[turn % 4],
    ] {
        let [i, j, n, q] = asked.map(|number: u64| number.to_string());
        cases.push(case(&["margin", &i, &j, &n, &q], bytes));
    }
}

/// A table of `examples/`. One that is refused is asked about in fewer ways.
fn about_table(bytes: &[u8], turn: usize) -> Vec<Case> {
    let mut cases = Vec::new();
    match judge(bytes) {
        Ok(table) => {
            about_periods(bytes, walks::period(&table), table.len, &mut cases);
            about_margins(bytes, &table, turn, &mut cases);
            cases.push(case(&["gap"], bytes));
            cases.push(case(&["unfold"], &reply_of(bytes)));
        }
        Err(_) => {
            about_periods(bytes, 1, 1, &mut cases);
            cases.push(case(&["margin", "0", "0", "1", "1"], bytes));
            cases.push(case(&["margin", "99", "99", "0", "0"], bytes));
            cases.push(case(&["gap"], bytes));
        }
    }
    cases
}

// ---- damaged tables and replies -----------------------------------------

/// Two operations race.
const RACE: &str = "0100020004 020003020101 0300080000000100000001 \
    040012000000020001000000000000000100000001 040012000100020002000000010000000000000001";

/// The first operation decides the mode, and the second starts before it has ended.
const EARLY: &str = "0100020004 020003020002 03000c000000030000000300000003 \
    040012000000020001000000000000000000000003 040012000100020002000000000000000000000002 05000100";

/// K1 with a hold of one tick; at offset 29 is the hold.
const HELD: &str = "0100020005 020003010001 0300080000000100000001 \
    040014 0001 0003 0001 0001 00000000 00000000 00000001";

/// K1 cut, K1 with a wrong length, a race, an operation that is too early, a reply, K1 with a
/// decider, and with one that it does not have; K1 with a hold, with holds that are out of range,
/// with one and a decider, and with a length between; and K1 with more bytes behind it than are
/// read: what the tables of `examples/` do not have.
fn damaged_tables() -> Vec<Vec<u8>> {
    let k1 = k1();
    let mut long_field = k1.clone();
    long_field[2] += 1;
    let held = bytes_in(HELD).expect("hexadecimal text");
    vec![
        k1[..k1.len() - 1].to_vec(),
        long_field,
        bytes_in(RACE).expect("hexadecimal text"),
        bytes_in(EARLY).expect("hexadecimal text"),
        reply_of(&k1),
        [&k1[..], &[0x05, 0, 1, 0]].concat(),
        [&k1[..], &[0x05, 0, 1, 1]].concat(),
        held.clone(),
        changed(&held, 30, 0),
        changed(&held, 30, 2),
        changed(&held, 24, 19),
        [&held[..], &[0x05, 0, 1, 0]].concat(),
        [&held[..], &[0x05, 0, 1, 1]].concat(),
        [&k1[..], &[0; 5000]].concat(),
    ]
}

fn about_damaged_tables() -> Vec<Case> {
    let ask_all = |bytes: Vec<u8>| {
        [
            case(&[], &bytes),
            case(&["boards", "3"], &bytes),
            case(&["values", "3"], &bytes),
            case(&["values", "0"], &bytes),
            case(&["margin", "0", "0", "1", "3"], &bytes),
            case(&["margin", "0", "9", "1", "3"], &bytes),
            case(&["gap"], &bytes),
        ]
    };
    damaged_tables().into_iter().flat_map(ask_all).collect()
}

/// A reply of so many rows, all alike.
fn reply_with(period: u64, folded: u64, fst: u64, rows: usize) -> Vec<u8> {
    reply_bytes(&Reply {
        period,
        rows: vec![Row { folded, fst }; rows],
    })
}

/// The bytes with another one at a place.
fn changed(bytes: &[u8], place: usize, byte: u8) -> Vec<u8> {
    let mut changed = bytes.to_vec();
    changed[place] = byte;
    changed
}

/// Cut, with a wrong tag or length, with the most rows and one more, and with numbers at both
/// sides of their ranges; two tables; and more bytes than are read.
fn about_replies() -> Vec<Case> {
    let reply = reply_of(&k3());
    let cuts = [0, 1, 4, 5, 6, 8, 11, 12, 25];
    let mut all: Vec<Vec<u8>> = cuts.iter().map(|cut| reply[..*cut].to_vec()).collect();
    let wrong = [(0, 0x12), (5, 0x11), (12, 4), (2, 3), (7, 5), (21, 3)];
    all.extend(wrong.map(|(place, byte)| changed(&reply, place, byte)));
    all.extend([
        reply_with(3, 1, 0, 32),
        reply_with(3, 1, 0, 33),
        reply_with(0, 0, 0, 1),
        reply_with(1, 0, 999, 2),
        reply_with(1000, 999, 0, 1),
        reply_with(1001, 0, 0, 1),
        reply_with(1000, 0, 1, 1),
        reply_with(3, 3, 0, 1),
        reply_with(1000, 0, 0xffff, 1),
        k1(),
        bytes_in(RACE).expect("hexadecimal text"),
        [&reply[..], &[0; 5000]].concat(),
    ]);
    all.iter().map(|reply| case(&["unfold"], reply)).collect()
}

// ---- words, good and bad ------------------------------------------------

/// Lines that are a question. K1 has one operation, and is 5 ticks long.
const GOOD: [&[&str]; 22] = [
    &[],
    &["gap"],
    &["boards", "000"],
    &["boards", "002"],
    &["boards", "00000000000000000000000000000003"],
    &["values", "0000"],
    &["values", "007"],
    &["values", "00000000000000000000000000000005"],
    &["boards", "65539"],
    &["values", "4294967299"],
    &["boards", "18446744073709551615"],
    &["values", "18446744073709551616"],
    &["boards", "18446744073709551619"],
    &["values", "184467440737095516160"],
    &["boards", "340282366920938463463374607431768211459"],
    &["margin", "00", "000", "0001", "002"],
    &["margin", "18446744073709551616", "0", "1", "3"],
    &["margin", "0", "4294967296", "1", "3"],
    &["margin", "0", "18446744073709551616", "0", "3"],
    &["margin", "0", "0", "18446744073709551617", "0"],
    &["margin", "0", "0", "1", "18446744073709551619"],
    &["margin", "0", "0", "1000", "5"],
];

/// Lines that are none: no such word, too few words, too many, and words that are no number
/// where one is due.
const BAD: [&[&str]; 74] = [
    &[""],
    &["", ""],
    &[" "],
    &["3"],
    &["-h"],
    &["--help"],
    &["fold"],
    &["period"],
    &["right", "3"],
    &["Boards", "3"],
    &["BOARDS", "3"],
    &["boards ", "3"],
    &[" boards", "3"],
    &["boards 3"],
    &["board", "3"],
    &["boardss", "3"],
    &["value", "3"],
    &["Values", "3"],
    &["Unfold"],
    &["unfol"],
    &["unfolds"],
    &["Margin", "0", "0", "1", "3"],
    &["3", "boards"],
    &["boards"],
    &["values"],
    &["margin"],
    &["margin", "0"],
    &["margin", "0", "0"],
    &["margin", "0", "0", "1"],
    &["boards", "3", "3"],
    &["boards", "3", ""],
    &["values", "3", "boards", "3"],
    &["boards", "0", "0", "1", "3"],
    &["values", "0", "0", "1", "3"],
    &["values", "3", "3", "3", "3", "3"],
    &["margin", "0", "0", "1", "3", "3"],
    &["margin", "0", "0", "1", "3", ""],
    &["margin", "0", "0", "1", "3", "3", "3"],
    &["unfold", ""],
    &["unfold", "3"],
    &["unfold", "unfold"],
    &["unfold", "0", "0", "1", "3"],
    &["gap", ""],
    &["gap", "3"],
    &["gap", "0"],
    &["gap", "gap"],
    &["gap", "0", "0", "1", "3"],
    &["Gap"],
    &["GAP"],
    &["ga"],
    &["gaps"],
    &["gap "],
    &[" gap"],
    &["unfold", "gap"],
    &["boards", ""],
    &["boards", "+3"],
    &["values", "-3"],
    &["boards", "-0"],
    &["boards", "0x10"],
    &["values", "1 "],
    &["boards", " 1"],
    &["values", "1\n"],
    &["boards", "3a"],
    &["values", "a3"],
    &["boards", "3.0"],
    &["values", "1e0"],
    &["boards", "1_0"],
    &["values", "/"],
    &["boards", ":"],
    &["values", "\u{663}"],
    &["margin", "", "0", "1", "3"],
    &["margin", "0", "-1", "1", "3"],
    &["margin", "0", "0", "1x", "3"],
    &["margin", "0", "0", "1", "3 "],
];

/// The longest word that the system hands over has this many bytes.
const LONGEST_WORD: usize = 131_071;

/// Lines with words as long as a word can be, and with bytes that are no text; the first three
/// are a question.
fn long_lines() -> [Vec<Word>; 8] {
    let (zeros, nines) = (b"0".repeat(LONGEST_WORD - 1), b"9".repeat(LONGEST_WORD));
    let line = |words: &[&[u8]]| words.iter().map(|word| word.to_vec()).collect();
    [
        line(&[b"boards", &[&zeros[..], b"3"].concat()]),
        line(&[b"boards", &nines]),
        line(&[b"margin", &zeros, &zeros, &nines, &nines]),
        line(&[b"values", &[&nines[1..], b"x"].concat()]),
        line(&[&b"boards".repeat(1000), b"3"]),
        line(&[&b"unfold"[..]; 300]),
        line(&[b"boards", b"3\xff"]),
        line(&[b"\xff", b"3"]),
    ]
}

/// Good words about K1. Bad ones "whatever is on standard input": K1, nothing, or a reply, in
/// turn.
fn about_words() -> Vec<Case> {
    let inputs = [k1(), Vec::new(), reply_of(&k1())];
    let good = GOOD.iter().map(|words| case(words, &inputs[0]));
    let bad = BAD.iter().zip(inputs.iter().cycle());
    let bad = bad.map(|(words, input)| case(words, input));
    let long = long_lines().map(|words| Case { words, input: k1() });
    good.chain(bad).chain(long).collect()
}

/// The lines are what they are said to be.
pub fn lines_are_as_said() -> bool {
    let is_question = |words: &&[&str]| question_in(&case(words, &[]).words).is_some();
    let long = long_lines().map(|words| question_in(&words).is_some());
    GOOD.iter().all(is_question)
        && !BAD.iter().any(is_question)
        && long == [true, true, true, false, false, false, false, false]
}

// ---- drawn lines --------------------------------------------------------

/// A number, mostly a small one: also with zeros before it, around 16, 32 and 64 bits, and of
/// more digits.
fn drawn_number(seed: &mut Seed) -> Word {
    let small = u128::from(seed.below(8));
    let edge = 1u128 << seed.one_of(&[16, 32, 64]);
    let text = match seed.below(12) {
        0 => format!("00{}", small),
        1 => (edge + small).to_string(),
        2 => (edge - 1 - small).to_string(),
        3 => format!("{}{}", seed.draw(), seed.draw()),
        _ => small.to_string(),
    };
    text.into_bytes()
}

fn drawn_question(seed: &mut Seed) -> Vec<Word> {
    let kinds: [(&[u8], u64); 5] = [
        (b"boards", 1),
        (b"values", 1),
        (b"margin", 4),
        (b"unfold", 0),
        (b"gap", 0),
    ];
    let (name, numbers) = kinds[seed.below(5) as usize];
    let mut words = vec![name.to_vec()];
    words.extend((0..numbers).map(|_| drawn_number(seed)));
    words
}

/// One word is left out, twice there, in another place, longer or shorter, or has another byte.
fn damage_line(seed: &mut Seed, words: &mut Vec<Word>) {
    let place = seed.below(words.len() as u64) as usize;
    let other = seed.below(words.len() as u64) as usize;
    let byte = b"0179 +-xXaBb.,/:\n\xff"[seed.below(18) as usize];
    let word = &mut words[place];
    let letter = seed.below(word.len() as u64) as usize;
    match seed.below(7) {
        0 => drop(words.remove(place)),
        1 => words.insert(place, words[other].clone()),
        2 => words.swap(place, other),
        3 => word.insert(letter, byte),
        4 => word.push(byte),
        5 => word[letter] = byte,
        _ => drop(word.remove(letter)),
    }
}

/// Bytes for standard input: a table or a reply, whole or damaged, mostly as the first word
/// wants it.
fn drawn_input(seed: &mut Seed, words: &[Word]) -> Vec<u8> {
    let wants_reply = words.first().map_or(false, |word| word == b"unfold");
    match (seed.below(4), wants_reply != seed.once_in(10)) {
        (0, true) => reply_of(&k3()),
        (_, true) => generate::reply(seed),
        (0, false) => generate::table_bytes(seed),
        (1, false) => k1(),
        (2, false) => k3(),
        (_, false) => k7(),
    }
}

/// A line of words, one in three damaged.
fn drawn_case(seed: &mut Seed) -> Case {
    let mut words = drawn_question(seed);
    let input = drawn_input(seed, &words);
    if seed.once_in(3) {
        damage_line(seed, &mut words);
    }
    Case { words, input }
}

// ---- the program --------------------------------------------------------

/// The program, started with the words; its input is written. What it does not take of that
/// is lost, and shows in what it prints.
fn started(program: &[String], case: &Case) -> std::io::Result<Child> {
    let words = case.words.iter().cloned().map(OsString::from_vec);
    let mut child = Command::new(&program[0])
        .args(&program[1..])
        .args(words)
        .stdin(Stdio::piped())
        .stdout(Stdio::piped())
        .stderr(Stdio::piped())
        .spawn()?;
    if let Some(mut to) = child.stdin.take() {
        let _ = to.write_all(&case.input);
    }
    Ok(child)
}

/// Both streams are as they should be, and the program ended without a failure.
fn is_as_planned(output: &Output, planned: &(String, String)) -> bool {
    output.stdout == planned.0.as_bytes()
        && output.stderr == planned.1.as_bytes()
        && output.status.code() == Some(0)
}

/// The kind of an answer: the question's word, and what the answer begins with; of ASK also its
/// place.
fn kind_of(words: &[Word], planned: &(String, String)) -> String {
    if planned.1 == LIST {
        return String::from("list");
    }
    let name = words
        .first()
        .map_or("fold".into(), |word| String::from_utf8_lossy(word));
    let parts: Vec<&str> = planned.0.split_whitespace().collect();
    let begins = match parts[..] {
        ["refused", "9", place, _] => format!("refused 9 {}", place),
        ["refused", number, _, _] => format!("refused {}", number),
        ["margin", margin] if margin.starts_with('-') => String::from("-"),
        _ => parts[0].to_string(),
    };
    format!("{} {}", name, begins)
}

/// The kinds that have to be met.
fn kinds() -> Vec<String> {
    let fixed = [
        "list",
        "fold period",
        "boards yes",
        "boards no",
        "values yes",
        "values no",
        "margin margin",
        "margin -",
        "unfold op",
        "gap gap",
        "boards refused 9 0",
        "values refused 9 0",
        "margin refused 9 0",
        "margin refused 9 1",
        "margin refused 9 2",
        "margin refused 9 3",
    ];
    let mut all: Vec<String> = fixed.iter().map(|kind| kind.to_string()).collect();
    for (name, most) in [
        ("boards", 7),
        ("values", 7),
        ("margin", 7),
        ("unfold", 5),
        ("gap", 7),
    ] {
        all.extend((1..=most).map(|number| format!("{} refused {}", name, number)));
    }
    let early = ["fold", "boards", "values", "margin", "gap"];
    all.extend(early.map(|name| format!("{} refused 10", name)));
    all
}

// ---- what was found -----------------------------------------------------

#[derive(Default)]
struct Found {
    met: BTreeMap<String, u64>,
    differences: u64,
}

impl Found {
    fn note(&mut self, case: &Case, output: &Output) {
        let planned = printed(&case.words, &case.input);
        *self.met.entry(kind_of(&case.words, &planned)).or_default() += 1;
        if is_as_planned(output, &planned) {
            return;
        }
        self.differences += 1;
        if self.differences <= MOST_PRINTED {
            print_difference(case, output, &planned);
        }
    }

    fn missed(&self) -> Vec<String> {
        let mut all = kinds();
        all.retain(|kind| !self.met.contains_key(kind));
        all
    }
}

/// At most so many bytes of a word are shown.
fn shown(bytes: &[u8]) -> String {
    String::from_utf8_lossy(&bytes[..bytes.len().min(80)]).into_owned()
}

fn print_difference(case: &Case, output: &Output, planned: &(String, String)) {
    let words: Vec<String> = case.words.iter().map(|word| shown(word)).collect();
    let input = &case.input[..case.input.len().min(900)];
    println!("fold {:?} differs on {}", words, hex(input));
    println!("  program {:?}", String::from_utf8_lossy(&output.stdout));
    println!("  planner {:?}", planned.0);
    println!(
        "  program's error {:?}, {}",
        shown(&output.stderr),
        output.status
    );
    println!("  planner's error {:?}", shown(planned.1.as_bytes()));
}

/// All cases: about each table and a longest one with holds and a decider, about damaged ones
/// and replies, words by themselves, drawn ones.
fn all_cases(tables: &[Vec<u8>]) -> Vec<Case> {
    let mut seed = Seed::new(1);
    let longest = bytes_of(&generate::longest_held(&mut seed));
    let tables = tables.iter().chain([&longest]).enumerate();
    let mut cases: Vec<Case> = tables
        .flat_map(|(turn, bytes)| about_table(bytes, turn))
        .collect();
    cases.push(case(&[], &longest));
    cases.extend(about_damaged_tables());
    cases.extend(about_replies());
    cases.extend(about_words());
    cases.extend((0..DRAWN).map(|_| drawn_case(&mut seed)));
    cases
}

fn ask_program(tables: &[Vec<u8>], program: &[String]) -> std::io::Result<bool> {
    let mut found = Found::default();
    let cases = all_cases(tables);
    for some in cases.chunks(BESIDE) {
        let all: std::io::Result<Vec<Child>> =
            some.iter().map(|case| started(program, case)).collect();
        for (case, child) in some.iter().zip(all?) {
            found.note(case, &child.wait_with_output()?);
        }
    }
    let missed = found.missed();
    missed
        .iter()
        .for_each(|kind| println!("no answer of kind {}", kind));
    println!(
        "{} lines of words on {} tables and more, {} kinds of answers; {} answers differ",
        cases.len(),
        tables.len(),
        found.met.len(),
        found.differences
    );
    Ok(found.differences == 0 && missed.is_empty())
}

/// Files of tables' bytes, `--`, and the program with its arguments. True where no answer
/// differs and every kind was met.
pub fn words_command(args: &[String]) -> bool {
    let mut parts = args.splitn(2, |arg| arg == "--");
    let (files, program) = (parts.next().unwrap_or(&[]), parts.next().unwrap_or(&[]));
    let tables: std::io::Result<Vec<Vec<u8>>> = files.iter().map(std::fs::read).collect();
    match tables {
        Ok(tables) if !program.is_empty() => match ask_program(&tables, program) {
            Ok(good) => good,
            Err(error) => {
                eprintln!("words: {}", error);
                false
            }
        },
        _ => {
            eprintln!("words: FILE.. -- PROGRAM ARGUMENT..");
            false
        }
    }
}
