//! The library's answers beside those of the planner in this folder: the number,
//! a, b, and every lent byte.
//!
//! To add a function: declare it in `library`, give it a line in FUNCTIONS of
//! `findings`, and compare it in the draw that has its inputs (or in one more draw).

use crate::answers::{self, reply_bytes, start_bytes, starts_of, Reply, Row};
use crate::answers::{DECIDER_FIELD, LONGEST_REPLY};
use crate::blamed;
use crate::examples::K1;
use crate::findings::{lent, memory_for, planned, Findings, Seen};
use crate::gaps;
use crate::generate::{self, Seed};
use crate::hex::{bytes_in, hex};
use crate::judge::{bytes_of, bytes_of_numbers, judge, judge_numbers, numbers_of, put};
use crate::judge::{write_table, Numbers, Refusal, Table};
use crate::library::{self, Said};

/// What is drawn, in turn.
const DRAWS: [fn(&mut Seed, &mut Findings); 3] = [draw_bytes, draw_numbers, draw_reply];

// ---- calls --------------------------------------------------------------

/// A call that lends nothing but the input, beside the planner's answer to it.
fn compare_question(
    name: &str,
    bytes: &[u8],
    call: impl FnOnce(&mut [u8]) -> Said,
    answer: Result<usize, Refusal>,
    findings: &mut Findings,
) {
    let library = Seen::of(bytes.to_vec(), &[], |s, _| call(s));
    let planner = planned(answer, Vec::new());
    findings.note(name, || hex(bytes), &library, &planner);
}

/// A function that reads bytes and writes bytes, with what it has to write.
struct Writing {
    name: &'static str,
    call: fn(&mut [u8], &mut [u8]) -> Said,
    answer: Result<Vec<u8>, Refusal>,
}

impl Writing {
    /// Into one lent buffer.
    fn compare_into(&self, bytes: &[u8], before: &[u8], findings: &mut Findings) {
        let library = Seen::of(bytes.to_vec(), before, |s, memory| {
            (self.call)(s, lent(memory))
        });
        let mut memory = before.to_vec();
        let answer = self.answer.clone();
        let answer = answer.and_then(|answer| put(&answer, lent(&mut memory)));
        let planner = planned(answer, memory);
        let input = || format!("{} memory {}", hex(bytes), hex(before));
        findings.note(self.name, input, &library, &planner);
    }

    /// Into so many of the buffers of `rooms`.
    fn compare(&self, bytes: &[u8], most: usize, seed: &mut Seed, findings: &mut Findings) {
        // a refusal needs no room: any will do
        let needed = self.answer.as_ref().map_or(40, Vec::len);
        let lengths = rooms(seed, needed);
        let first = seed.below(ROOMS as u64) as usize;
        for place in first..first + most {
            let before = memory_for(seed, lengths[place % ROOMS]);
            self.compare_into(bytes, &before, findings);
        }
    }
}

/// How many buffers there are for one answer.
pub const ROOMS: usize = 5;

/// One byte too short, just enough, longer, empty, and drawn.
pub fn rooms(seed: &mut Seed, needed: usize) -> [usize; ROOMS] {
    let longer = needed + seed.between(1, 40) as usize;
    [needed - 1, needed, longer, 0, generate::room(seed, needed)]
}

// ---- a table's bytes ----------------------------------------------------

fn compare_judge(bytes: &[u8], findings: &mut Findings) {
    let answer = judge(bytes).map(|_| 0);
    compare_question("judge", bytes, library::judge, answer, findings);
}

/// A question about a table at a period: the names under which its refusals, its yes and
/// its no are counted, the library's function and the planner's.
struct AtPeriod {
    names: [&'static str; 3],
    call: fn(&mut [u8], u64) -> Said,
    answer: fn(&[u8], u64) -> Result<bool, Refusal>,
}

const AT_PERIOD: [AtPeriod; 2] = [
    AtPeriod {
        names: ["boards_fit", "boards_fit, yes", "boards_fit, no"],
        call: library::boards_fit,
        answer: answers::boards_fit,
    },
    AtPeriod {
        names: ["values_arrive", "values_arrive, yes", "values_arrive, no"],
        call: library::values_arrive,
        answer: answers::values_arrive,
    },
];

/// Both questions at a period.
fn compare_at_period(bytes: &[u8], q: u64, findings: &mut Findings) {
    for question in &AT_PERIOD {
        let answer = (question.answer)(bytes, q);
        let name = match answer {
            Err(_) => question.names[0],
            Ok(true) => question.names[1],
            Ok(false) => question.names[2],
        };
        let call = |s: &mut [u8]| (question.call)(s, q);
        compare_question(name, bytes, call, answer.map(usize::from), findings);
    }
}

/// Three numbers for a margin's place and its neighbours.
pub fn drawn_places(seed: &mut Seed) -> [i32; 3] {
    [seed.draw() as i32, seed.draw() as i32, seed.draw() as i32]
}

/// The bytes of numbers side by side.
pub fn bytes_of_places(places: [i32; 3]) -> Vec<u8> {
    places
        .iter()
        .flat_map(|place| place.to_le_bytes())
        .collect()
}

/// What a margin is asked with: i, j, n, q.
pub type Margin = (u64, u64, u64, u64);

/// The margin's place and its neighbours are the memory that is looked at.
pub fn seen_margin(
    bytes: &[u8],
    asked: Margin,
    before: [i32; 3],
    call: fn(&mut [u8], Margin, &mut [i32; 3]) -> Said,
) -> Seen {
    Seen::of(bytes.to_vec(), &bytes_of_places(before), |s, memory| {
        let mut places = before;
        let said = call(s, asked, &mut places);
        memory.copy_from_slice(&bytes_of_places(places));
        said
    })
}

fn compare_margin(bytes: &[u8], asked: Margin, seed: &mut Seed, findings: &mut Findings) {
    let before = drawn_places(seed);
    let library = seen_margin(bytes, asked, before, library::margin);
    let (i, j, n, q) = asked;
    let answer = answers::margin(bytes, i, j, n, q);
    let mut places = before;
    places[1] = answer.map_or(before[1], |margin| margin as i32);
    let planner = planned(answer.map(|_| 0), bytes_of_places(places));
    let input = || format!("{:x?} of {}", asked, hex(bytes));
    findings.note("margin", input, &library, &planner);
}

/// The gap of a table, which is counted by itself where it is the period, where it is longer, and
/// where it is longer and p.
fn compare_gap(bytes: &[u8], period: Result<usize, Refusal>, findings: &mut Findings) {
    let table = judge(bytes);
    let answer = table.as_ref().map(|table| gaps::gap(table) as usize);
    let answer = answer.map_err(|refusal| *refusal);
    let p = table.map(|table| table.len as usize);
    let name = match answer {
        Err(_) => "gap",
        Ok(_) if answer == period => "gap, the period",
        Ok(_) if answer == p => "gap, longer, p",
        Ok(_) => "gap, longer",
    };
    compare_question(name, bytes, library::gap, answer, findings);
}

/// Period, gap, plan and fold; what is written goes into so many buffers.
fn compare_folds(bytes: &[u8], most: usize, seed: &mut Seed, findings: &mut Findings) {
    let folded = answers::fold(bytes);
    let answer = folded.as_ref().map(|reply| reply.period as usize);
    let answer = answer.map_err(|refusal| *refusal);
    compare_question("period", bytes, library::period, answer, findings);
    compare_gap(bytes, answer, findings);
    let fold = Writing {
        name: folded.as_ref().map_or("fold, refused", |_| "fold"),
        call: library::fold,
        answer: Ok(answers::text_of(&folded).into_bytes()),
    };
    fold.compare(bytes, most, seed, findings);
    let plan = Writing {
        name: "plan",
        call: library::plan,
        answer: folded.map(|reply| reply_bytes(&reply)),
    };
    plan.compare(bytes, most, seed, findings);
}

fn draw_bytes(seed: &mut Seed, findings: &mut Findings) {
    let bytes = generate::table_bytes(seed);
    findings.note_blamed("judge", &blamed::in_table(&bytes));
    findings.deciders.note_bytes(&bytes);
    findings.holds.note_bytes(&bytes);
    compare_judge(&bytes, findings);
    // whole tables have draws of their own; here it is the damaged ones
    if judge(&bytes).is_err() {
        compare_at_period(&bytes, generate::period_question(seed, 1000), findings);
        let asked = generate::margin_question(seed, 32, 1000);
        compare_margin(&bytes, asked, seed, findings);
        compare_folds(&bytes, ROOMS, seed, findings);
    }
}

/// An accepted table: its boards and its values at some period, some margin, its period, its gap
/// and what is written into so many buffers, and its starts back from the reply.
fn draw_table(table: &Table, most: usize, seed: &mut Seed, findings: &mut Findings) {
    let bytes = bytes_of(table);
    compare_at_period(&bytes, generate::period_question(seed, table.len), findings);
    let asked = generate::margin_question(seed, table.ops.len() as u64, table.len);
    compare_margin(&bytes, asked, seed, findings);
    compare_folds(&bytes, most, seed, findings);
    compare_there_and_back(table, seed, findings);
}

/// What the library folds it unfolds: the starts that it gives for its own reply are
/// those of the table.
fn compare_there_and_back(table: &Table, seed: &mut Seed, findings: &mut Findings) {
    let mut reply = [0; LONGEST_REPLY];
    let said = library::plan(&mut bytes_of(table), &mut reply);
    let count = reply.len().min(said.a as usize);
    let unfold = Writing {
        name: "unfold",
        call: library::unfold,
        answer: Ok(start_bytes(table.ops.iter().map(|op| op.start))),
    };
    unfold.compare(&reply[..count], 1, seed, findings);
}

/// The bytes with each byte changed to each other value, and cut at every length.
fn all_damages(bytes: &[u8]) -> Vec<Vec<u8>> {
    let mut all = generate::all_cuts(bytes);
    for place in 0..bytes.len() {
        for byte in 0..=255 {
            let mut changed = bytes.to_vec();
            changed[place] = byte;
            all.push(changed);
        }
    }
    all
}

fn k1() -> Vec<u8> {
    bytes_in(K1).expect("the example is hexadecimal text")
}

/// Two modes, three boards. The first operation decides the mode and lasts two ticks, its board
/// is held for one more; the second runs in one mode and starts then, the third runs in both, does
/// not wait, and its board is held up to the end.
const DECIDED: &str = "0100020004 020003030002 03000c000000010000000300000001 \
    0400140000000200010001000000000000000000000003 040012000200010002000000000000000000000001 \
    0400140001000200010004000000000000000000000003 05000100";

fn decided() -> Vec<u8> {
    let bytes = bytes_in(DECIDED).expect("hexadecimal text");
    judge(&bytes).expect("it is accepted");
    bytes
}

/// K1, K1 and another table with holds and a decider, and K1's reply, with every small damage.
fn fixed_bytes(seed: &mut Seed, findings: &mut Findings) {
    let k1 = k1();
    for table in [&k1, &bytes_of_numbers(&k1_numbers(1)), &decided()] {
        for bytes in all_damages(table) {
            compare_judge(&bytes, findings);
            compare_at_period(&bytes, generate::period_question(seed, 5), findings);
            compare_folds(&bytes, 1, seed, findings);
        }
    }
    let reply = answers::fold(&k1).expect("K1 is accepted");
    for reply in all_damages(&reply_bytes(&reply)) {
        compare_unfold(&reply, seed, findings);
    }
}

/// Numbers at both sides of some ranges, and of fields of one, two and four bytes.
const VALUES: [u64; 12] = [
    0,
    1,
    5,
    17,
    33,
    256,
    1000,
    1001,
    65535,
    65536,
    1 << 32,
    u64::MAX,
];

fn pairs_of_values() -> impl Iterator<Item = (u64, u64)> {
    VALUES.iter().flat_map(|one| VALUES.map(|two| (*one, two)))
}

/// K1 as numbers; its only operation decides the mode, and has a hold of one tick with this
/// mark.
fn k1_numbers(mark: u64) -> Numbers {
    let mut table = judge(&k1()).expect("K1 is accepted");
    (table.ops[0].hold, table.decider) = (Some(1), Some(0));
    let mut numbers = numbers_of(&table);
    numbers.holds[0] = mark;
    numbers
}

/// K1 with any two of its numbers at any of these values, as numbers and as bytes, with its hold
/// marked and not.
fn fixed_pairs(findings: &mut Findings) {
    for k1 in [k1_numbers(0), k1_numbers(1)] {
        let places = k1.decider_place() + 1;
        let pairs = (0..places).flat_map(|second| (0..second).map(move |first| (first, second)));
        for (first, second) in pairs {
            for values in pairs_of_values() {
                let mut numbers = k1.clone();
                (*numbers.number(first), *numbers.number(second)) = values;
                compare_judge_numbers(&numbers, findings);
                compare_judge(&bytes_of_numbers(&numbers), findings);
            }
        }
    }
}

/// Judged, and written into just as many bytes as the whole operations want.
fn compare_numbers(numbers: &Numbers, seed: &mut Seed, findings: &mut Findings) {
    compare_judge_numbers(numbers, findings);
    let before = memory_for(seed, bytes_of_numbers(numbers).len());
    compare_write(numbers, &before, findings);
}

/// K1 with its mark and its decider at any of these values, and with numbers of its
/// operation missing or more behind them.
fn fixed_marks(seed: &mut Seed, findings: &mut Findings) {
    for (mark, decider) in pairs_of_values() {
        for length in 0..=13 {
            let mut numbers = k1_numbers(length as u64 % 2);
            numbers.ops.resize(length, 1);
            (numbers.mark, numbers.decider) = (mark, decider);
            compare_numbers(&numbers, seed, findings);
        }
    }
}

/// Holds beyond 16, 32 and 48 bits that would be good in these.
const LONG_HOLDS: [u64; 3] = [(1 << 16) + 1, (1 << 32) + 1, (1 << 48) + 1];

/// K1 with the mark of its hold and the hold at any of these values, and with as many of its
/// other numbers, and of marks and holds, as none, one, and too few or too many for one or two
/// operations.
fn fixed_holds(seed: &mut Seed, findings: &mut Findings) {
    let long = LONG_HOLDS.iter().map(|hold| (1, *hold));
    for (mark, hold) in pairs_of_values().chain(long) {
        for ops in [0, 1, 5, 6, 7, 11, 12, 13] {
            for holds in 0..=5 {
                let mut numbers = k1_numbers(mark);
                numbers.holds[1] = hold;
                numbers.ops = numbers.ops.repeat(3);
                numbers.holds = numbers.holds.repeat(3);
                numbers.ops.truncate(ops);
                numbers.holds.truncate(holds);
                compare_numbers(&numbers, seed, findings);
            }
        }
    }
}

/// K1's operation 32 times, with holds in all fields, in every second one, and in none, and with
/// as many of a 33rd one's numbers, and of its mark and its hold.
fn fixed_many(seed: &mut Seed, findings: &mut Findings) {
    for marks in [[1, 1], [0, 1], [1, 0], [0, 0]] {
        for (ops, holds) in [
            (0, 0),
            (1, 0),
            (0, 1),
            (0, 2),
            (6, 0),
            (6, 1),
            (6, 2),
            (12, 4),
        ] {
            let mut numbers = k1_numbers(1);
            numbers.ops = numbers.ops.repeat(34);
            numbers.holds = marks.iter().flat_map(|mark| [*mark, 1]).collect();
            numbers.holds = numbers.holds.repeat(17);
            numbers.ops.truncate(32 * 6 + ops);
            numbers.holds.truncate(32 * 2 + holds);
            compare_numbers(&numbers, seed, findings);
            compare_judge(&bytes_of_numbers(&numbers), findings);
        }
    }
}

/// Bytes behind a table: up to three of these, which are headers of operations, of deciders and of
/// no field, and as many as nobody reads.
fn all_behind(table: &[u8]) -> Vec<Vec<u8>> {
    let mut all = Vec::new();
    for header in [
        [4, 0, 18],
        [4, 0, 19],
        [4, 0, 20],
        [5, 0, 1],
        [5, 0, 20],
        [0; 3],
    ] {
        all.extend((1..=3).map(|length| [table, &header[..length]].concat()));
        for byte in [0, 4, 31, 32] {
            all.push([table, &header, &[byte]].concat());
            all.push([table, &header, &[byte; 5000]].concat());
        }
    }
    all
}

/// A longest table without its decider's field and with it, the end of it cut, and with bytes
/// behind it: "no answer depends on bytes past 889".
fn fixed_longest(seed: &mut Seed, findings: &mut Findings) {
    let decided = bytes_of(&generate::longest_held(seed));
    let longest = &decided[..decided.len() - DECIDER_FIELD];
    let cuts = (decided.len() - 30..=decided.len()).map(|length| decided[..length].to_vec());
    for bytes in cuts.chain(all_behind(longest)).chain(all_behind(&decided)) {
        compare_judge(&bytes, findings);
        compare_at_period(&bytes, generate::period_question(seed, 1000), findings);
        if judge(&bytes).is_err() {
            compare_folds(&bytes, 1, seed, findings);
        }
    }
}

/// The margins that are farthest from 0: an operation that lasts a whole table, one at its
/// start, one at its end.
fn fixed_margins(seed: &mut Seed, findings: &mut Findings) {
    let table = generate::widest();
    let bytes = bytes_of(&table);
    for asked in [
        (0, 1, 1, 1),
        (1, 2, 1000, 1000),
        (0, 1, 1, 1000),
        (1, 1, 1, 1),
    ] {
        compare_margin(&bytes, asked, seed, findings);
    }
}

/// The gap alone, since a search for these periods takes long.
fn compare_fixed_gap(table: &Table, findings: &mut Findings) {
    let (bytes, gap) = (bytes_of(table), gaps::gap(table) as usize);
    compare_question("gap, fixed", &bytes, library::gap, Ok(gap), findings);
}

/// Gaps that are asked for by cycles 1 to 32 turns apart, by boards and by values, in tables of so many ticks; and those
/// of tables over rings, and of those in which there are most distances.
fn fixed_gaps(seed: &mut Seed, findings: &mut Findings) {
    for p in [2, 3, 31, 32, 33, 64, 65, 97, 999, 1000] {
        for turns in 1..=32 {
            for boards in [true, false] {
                let table = generate::ring_apart(p, turns, boards);
                compare_fixed_gap(&table, findings);
            }
        }
    }
    for _ in 0..3 {
        for draw in [generate::ring_drawn, generate::ring_placed, generate::near] {
            compare_fixed_gap(&draw(seed), findings);
        }
    }
}

// ---- replies ------------------------------------------------------------

fn compare_unfold(reply: &[u8], seed: &mut Seed, findings: &mut Findings) {
    let unfold = Writing {
        name: "unfold",
        call: library::unfold,
        answer: starts_of(reply),
    };
    unfold.compare(reply, ROOMS, seed, findings);
}

/// A reply of one row, its period and both numbers of the row at any of the values.
fn fixed_replies(seed: &mut Seed, findings: &mut Findings) {
    for period in VALUES {
        for (folded, fst) in pairs_of_values() {
            let rows = vec![Row { folded, fst }];
            compare_unfold(&reply_bytes(&Reply { period, rows }), seed, findings);
        }
    }
}

fn draw_reply(seed: &mut Seed, findings: &mut Findings) {
    let reply = generate::reply(seed);
    findings.note_blamed("unfold", &blamed::in_reply(&reply));
    compare_unfold(&reply, seed, findings);
}

// ---- a table's numbers --------------------------------------------------

fn hex_words(words: &[u64]) -> String {
    let all: Vec<String> = words.iter().map(|word| format!("{:x}", word)).collect();
    all.join(" ")
}

fn hex_numbers(n: &Numbers) -> String {
    format!(
        "p {:x} boards {:x} cells {:x} modes {:x} first {:x} follow [{}] ops [{}] holds [{}] mark {:x} decider {:x}",
        n.p,
        n.boards,
        n.cells,
        n.modes,
        n.first,
        hex_words(&n.follow),
        hex_words(&n.ops),
        hex_words(&n.holds),
        n.mark,
        n.decider
    )
}

fn compare_judge_numbers(numbers: &Numbers, findings: &mut Findings) {
    let library = Seen::of(numbers.clone(), &[], |n, _| library::judge_numbers(n));
    let planner = planned(judge_numbers(numbers).map(|_| 0), Vec::new());
    findings.note("judge_numbers", || hex_numbers(numbers), &library, &planner);
}

fn compare_write(numbers: &Numbers, before: &[u8], findings: &mut Findings) {
    let library = Seen::of(numbers.clone(), before, |n, memory| {
        library::write(n, lent(memory))
    });
    let mut memory = before.to_vec();
    let answer = write_table(numbers, lent(&mut memory));
    let planner = planned(answer, memory);
    let input = || format!("{} memory {}", hex_numbers(numbers), hex(before));
    findings.note("write", input, &library, &planner);
}

fn draw_numbers(seed: &mut Seed, findings: &mut Findings) {
    let numbers = generate::numbers(seed);
    findings.note_blamed("judge_numbers", &blamed::in_numbers(&numbers));
    findings.deciders.note_numbers(&numbers);
    findings.holds.note_numbers(&numbers);
    compare_judge_numbers(&numbers, findings);
    for length in rooms(seed, bytes_of_numbers(&numbers).len()) {
        let before = memory_for(seed, length);
        compare_write(&numbers, &before, findings);
    }
}

// ---- all ----------------------------------------------------------------

/// So many drawn inputs, after the fixed ones. True where no answer differs and
/// every number was met.
pub fn against(count: u64, mut seed: Seed) -> bool {
    let mut findings = Findings::default();
    fixed_bytes(&mut seed, &mut findings);
    fixed_pairs(&mut findings);
    fixed_marks(&mut seed, &mut findings);
    fixed_holds(&mut seed, &mut findings);
    fixed_many(&mut seed, &mut findings);
    fixed_longest(&mut seed, &mut findings);
    fixed_replies(&mut seed, &mut findings);
    fixed_margins(&mut seed, &mut findings);
    fixed_gaps(&mut seed, &mut findings);
    for turn in 0..count {
        let draw = DRAWS[turn as usize % DRAWS.len()];
        draw(&mut seed, &mut findings);
    }
    for _ in 0..count / 2 {
        let table = generate::small(&mut seed);
        draw_table(&table, ROOMS, &mut seed, &mut findings);
    }
    for turn in 0..count / 100 {
        let table = match turn % 2 {
            0 => generate::large(&mut seed),
            _ => generate::any_largest(&mut seed),
        };
        draw_table(&table, 1, &mut seed, &mut findings);
    }
    findings.print();
    let missed = findings.missed();
    missed.iter().for_each(|line| println!("{}", line));
    println!(
        "{} inputs, {} small tables and {} large ones drawn, {} answers differ",
        count,
        count / 2,
        count / 100,
        findings.differences
    );
    findings.differences == 0 && missed.is_empty()
}
