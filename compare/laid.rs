//! All runs of small tables, laid out one by one, beside the library's answers and those by walks.

use crate::answers;
use crate::generate::{self, Seed};
use crate::holds::without_holds;
use crate::judge::{bytes_of, has, Op, Table};
use crate::kinds::{Shown, KINDS};
use crate::library::{self, Said};
use crate::pressed;
use crate::runs::{enough_cycles, smallest, Run, Wrong};
use crate::{simple, walks};

/// How many differences are printed; the others are only counted.
const MOST_PRINTED: u64 = 5;

/// How many cycles a drawn run of a larger table has.
const LONG: usize = 24;

// ---- what was found -----------------------------------------------------

/// What the boards and the values of a table say at a period, by both words: the place of
/// "boards yes" is 2 and that of "values yes" is 1.
const WORDS: [&str; 4] = [
    "neither the boards fit nor the values arrive",
    "the values arrive and the boards do not fit",
    "the boards fit and the values do not arrive",
    "the boards fit and the values arrive",
];

/// What a table with holds gains where they are taken away: nothing, right periods, or a
/// smaller period too.
const GAINS: [&str; 3] = [
    "gain nothing without their holds",
    "gain right periods, and keep their period",
    "get a smaller period",
];

struct Found {
    words: [u64; WORDS.len()],
    kinds: [u64; KINDS.len()],
    gains: [u64; GAINS.len()],
    pressed: pressed::Found,
    differences: u64,
}

impl Found {
    /// Nothing so far.
    fn new() -> Found {
        Found {
            words: [0; WORDS.len()],
            kinds: [0; KINDS.len()],
            gains: [0; GAINS.len()],
            pressed: pressed::Found::new(MOST_PRINTED),
            differences: 0,
        }
    }

    fn check(&mut self, good: bool, what: &str, q: u64, table: &Table) {
        self.differences += u64::from(!good);
        if !good && self.differences <= MOST_PRINTED {
            println!("{} at {} of {:?}", what, q, table);
        }
    }

    fn note_kinds(&mut self, shown: &Shown<'_>) {
        for (count, (_, is_met)) in self.kinds.iter_mut().zip(KINDS) {
            *count += u64::from(is_met(shown));
        }
    }

    /// Each period of a table, by what its boards and its values say there.
    fn note_words(&mut self, table: &Table, wrong: &Wrong) {
        for q in 1..=table.len {
            let (boards, values) = (!has(wrong.boards, q), !has(wrong.values, q));
            self.words[2 * usize::from(boards) + usize::from(values)] += 1;
        }
    }

    /// A line for each kind of table and of period, and one more for each that was not met.
    fn print_kinds(&self) {
        let kinds = || self.kinds.iter().zip(KINDS);
        kinds().for_each(|(count, (name, _))| println!("{:>8} of kind {}", count, name));
        let words = || self.words.iter().zip(WORDS);
        words().for_each(|(count, name)| println!("{:>8} periods at which {}", count, name));
        let gains = || self.gains.iter().zip(GAINS);
        gains().for_each(|(count, name)| println!("{:>8} tables with holds {}", count, name));
        let missed = kinds().filter(|(count, _)| **count == 0);
        missed.for_each(|(_, (name, _))| println!("no table of kind {}", name));
        let missed = words().filter(|(count, _)| **count == 0);
        missed.for_each(|(_, name)| println!("no period at which {}", name));
        let missed = gains().filter(|(count, _)| **count == 0);
        missed.for_each(|(_, name)| println!("no tables with holds {}", name));
        self.pressed.print();
    }

    /// No answer differs, and every kind of table and of period was met.
    fn is_good(&self) -> bool {
        let mut counts = self.kinds.iter().chain(&self.words).chain(&self.gains);
        let all_met = counts.all(|count| *count > 0);
        self.differences == 0 && all_met && self.pressed.is_good()
    }
}

// ---- one table ----------------------------------------------------------

/// A table that is asked about, and the periods that runs show to be wrong for it: those at
/// which its boards do not fit, and those at which its values do not arrive.
struct Question {
    name: &'static str,
    table: Table,
    boards: u64,
    values: u64,
}

/// The table with its operations changed.
fn changed(table: &Table, change: fn(usize, &mut Op)) -> Table {
    let mut changed = table.clone();
    let ops = changed.ops.iter_mut().enumerate();
    ops.for_each(|(i, op)| change(i, op));
    changed
}

/// The table; by the highest names; without cells, so that only boards decide; with a
/// board for each operation, so that values decide, and each operation by itself; where
/// there is a decider, without it, which changes no period; and where there are holds, without
/// them, so that the boards fit where no two instances overlap by their durations, and the values
/// arrive as they did.
fn questions(table: &Table, wrong: &Wrong) -> Vec<Question> {
    let question = |name, table, boards, values| Question {
        name,
        table,
        boards,
        values,
    };
    let renamed = generate::relabelled(table);
    let no_cells = changed(table, |_, op| (op.reads, op.writes) = (0, 0));
    let mut own_boards = changed(table, |i, op| op.boards = 1 << i);
    own_boards.boards = table.ops.len() as u64;
    let mut all = vec![
        question("the table", table.clone(), wrong.boards, wrong.values),
        question("other names", renamed, wrong.boards, wrong.values),
        question("no cells", no_cells, wrong.boards, 0),
        question("own boards", own_boards, wrong.own_boards, wrong.values),
    ];
    if table.decider.is_some() {
        let mut table = table.clone();
        table.decider = None;
        all.push(question("no decider", table, wrong.boards, wrong.values));
    }
    if table.ops.iter().any(|op| op.hold.is_some()) {
        let bare = without_holds(table);
        all.push(question("no holds", bare, wrong.bare_boards, wrong.values));
    }
    all
}

/// An answer as the library tells it.
fn told(a: u64) -> Said {
    Said { number: 0, a, b: 0 }
}

/// Whether the boards fit at a period, or whether the values arrive: by the library, by
/// walks, and by one run.
struct Asked {
    name: &'static str,
    library: fn(&mut [u8], u64) -> Said,
    walks: fn(&Table, u64) -> bool,
    run: fn(&Run<'_>, u64) -> bool,
}

const BOARDS: Asked = Asked {
    name: "boards",
    library: library::boards_fit,
    walks: walks::boards_fit,
    run: |run, q| run.boards_fit(q),
};

const VALUES: Asked = Asked {
    name: "values",
    library: library::values_arrive,
    walks: walks::values_arrive,
    run: |run, q| run.values_arrive(q),
};

/// Both questions at a period: the library and the walks say what runs show. True where the
/// library says yes twice; "A period is right exactly when both say yes", and the simple
/// planner, which knows of neither question, says which are right.
fn compare_at(question: &Question, bytes: &mut [u8], q: u64, found: &mut Found) -> bool {
    let table = &question.table;
    let mut check = |good, what: &str, who: &str| {
        let what = format!("{}, {}, {}", question.name, what, who);
        found.check(good, &what, q, table)
    };
    let mut both = true;
    for (asked, wrong) in [(BOARDS, question.boards), (VALUES, question.values)] {
        let yes = !has(wrong, q);
        let answer = (asked.library)(bytes, q);
        check(answer == told(u64::from(yes)), asked.name, "library");
        check((asked.walks)(table, q) == yes, asked.name, "walks");
        both &= answer == told(1);
    }
    check(simple::is_good(table, q) == both, "both", "library");
    both
}

/// Every q from 1 to p, and the period, which is the smallest with two yeses: by runs, by the
/// library and by walks.
fn compare_question(question: &Question, found: &mut Found) {
    let table = &question.table;
    let mut bytes = bytes_of(table);
    let all = 1..=table.len;
    let right: Vec<u64> = all
        .filter(|q| compare_at(question, &mut bytes, *q, found))
        .collect();
    let mut check =
        |good, who: &str, q| found.check(good, &format!("{}, {}", question.name, who), q, table);
    let period = smallest(question.boards | question.values);
    check(right.first() == Some(&period), "smallest of yeses", period);
    check(
        library::period(&mut bytes) == told(period),
        "library's period",
        period,
    );
    check(walks::period(table) == period, "period by walks", period);
}

/// "Show that at a right period the decider of one cycle never starts before that of the
/// cycle before has ended": so it is in all runs, at every right period; and at each period
/// an operation that does not run in every mode waits for its own cycle's decider.
fn check_decider(table: &Table, wrong: &Wrong, found: &mut Found) {
    for q in 1..=table.len {
        let in_turn = has(wrong.all(), q) || !has(wrong.turns, q);
        found.check(in_turn, "the deciders' turns", q, table);
        found.check(!has(wrong.early, q), "what waits for the decider", q, table);
    }
}

// ---- tables with holds --------------------------------------------------

/// The table with each hold cut to half, or taken away.
fn shorter_holds(table: &Table) -> Table {
    let half = |hold: u64| Some(hold / 2).filter(|half| *half > 0);
    let mut shorter = table.clone();
    let ops = shorter.ops.iter_mut();
    ops.for_each(|op| op.hold = op.hold.and_then(half));
    shorter
}

/// "margins still go by the duration": the library's is that of the table without holds, as the
/// planner has it.
fn check_margin(seed: &mut Seed, table: &Table, found: &mut Found) {
    let ops = table.ops.len() as u64;
    let (i, j) = (seed.below(ops), seed.below(ops));
    let (n, q) = (seed.between(1, 3), seed.between(1, table.len));
    let (mut places, mut bytes) = ([0; 3], bytes_of(table));
    let said = library::margin(&mut bytes, (i, j, n, q), &mut places);
    let bare = answers::margin(&bytes_of(&without_holds(table)), i, j, n, q);
    let good = said == told(0) && Ok(i64::from(places[1])) == bare;
    found.check(good, &format!("margin of {} {} {}", i, j, n), q, table);
}

/// "In demand 3 the second table has no longer holds either": with shorter ones, the boards fit
/// at the first two periods at which they did, and at a drawn period the values are answered as
/// they were, by the library.
fn check_shorter_holds(seed: &mut Seed, table: &Table, wrong: &Wrong, found: &mut Found) {
    let mut bytes = bytes_of(&shorter_holds(table));
    let fitted = (1..=table.len).filter(|q| !has(wrong.boards, *q));
    for q in fitted.take(2) {
        let fit = library::boards_fit(&mut bytes, q) == told(1);
        found.check(fit, "shorter holds, boards", q, table);
    }
    let q = seed.between(1, table.len);
    let arrive = told(u64::from(!has(wrong.values, q)));
    let same = library::values_arrive(&mut bytes, q) == arrive;
    found.check(same, "shorter holds, values", q, table);
}

/// Without holds no right period is lost, in all runs, and some may be gained; that the library
/// says so is asked as one of the questions. Shorter holds, and a margin.
fn compare_holds(seed: &mut Seed, shown: &Shown<'_>, table: &Table, found: &mut Found) {
    if table.ops.iter().all(|op| op.hold.is_none()) {
        return;
    }
    let wrong = &shown.wrong;
    let lost = wrong.bare_boards & !wrong.boards;
    found.check(lost == 0, "right periods lost without holds", 0, table);
    let bare = wrong.bare_boards | wrong.values;
    let gained = usize::from(bare != wrong.all());
    let shorter = usize::from(shown.bare_period() < shown.period());
    found.gains[gained + shorter] += 1;
    check_shorter_holds(seed, table, wrong, found);
    check_margin(seed, table, found);
}

// ---- all runs of a table ------------------------------------------------

/// All runs of the length that is enough; sometimes also all shorter ones, and those
/// that are up to two cycles longer.
fn compare_table(seed: &mut Seed, table: &Table, longer: bool, found: &mut Found) {
    let enough = enough_cycles(table);
    let lengths = if longer {
        1..=enough + 2
    } else {
        enough..=enough
    };
    let shown = Shown::by_runs(table, lengths);
    found.note_kinds(&shown);
    found.note_words(table, &shown.wrong);
    check_decider(table, &shown.wrong, found);
    compare_holds(seed, &shown, table, found);
    pressed::compare_table(library::gap, seed, &shown, &mut found.pressed);
    for question in &questions(table, &shown.wrong) {
        compare_question(question, found);
    }
}

// ---- long runs ----------------------------------------------------------

/// Of one run of a table with a decider: its deciders take turns where the library says yes twice,
/// and what does not run in every mode waits for them at every period.
fn check_decider_of(run: &Run<'_>, q: u64, right: bool, found: &mut Found) {
    if run.table.decider.is_some() {
        let in_turn = !right || run.decides_in_turn(q);
        found.check(in_turn, "the deciders' turns, long run", q, run.table);
        let first = run.decides_first(q);
        found.check(first, "what waits for the decider, long run", q, run.table);
    }
}

/// The library's period of a larger table is that by walks. At it and at a drawn period, both
/// questions are answered as walks answer them, and a long drawn run says yes where the library
/// does. It is right with gaps that are at least the library's.
fn compare_long_run(seed: &mut Seed, found: &mut Found) {
    let table = generate::small(seed);
    let mut bytes = bytes_of(&table);
    let period = walks::period(&table);
    let answer = library::period(&mut bytes);
    found.check(answer == told(period), "library's period", period, &table);
    let modes = drawn_run(seed, &table);
    let run = Run::new(&table, &modes);
    for q in [period, seed.between(1, table.len)] {
        let mut both = true;
        for asked in [BOARDS, VALUES] {
            let yes = (asked.walks)(&table, q);
            let answer = (asked.library)(&mut bytes, q);
            let what = format!("larger table, {}, library", asked.name);
            found.check(answer == told(u64::from(yes)), &what, q, &table);
            let what = format!("{}, run {:?}", asked.name, modes);
            found.check(answer != told(1) || (asked.run)(&run, q), &what, q, &table);
            both &= answer == told(1);
        }
        check_decider_of(&run, q, both, found);
    }
    pressed::compare_long_run(library::gap, seed, &run, period, &mut found.pressed);
}

pub fn drawn_run(seed: &mut Seed, table: &Table) -> Vec<u64> {
    let mut modes = vec![drawn_member(seed, table.first)];
    while modes.len() < LONG {
        let last = modes[modes.len() - 1];
        modes.push(drawn_member(seed, table.follow[last as usize]));
    }
    modes
}

/// A member of a set that is not empty.
pub fn drawn_member(seed: &mut Seed, set: u64) -> u64 {
    let all: Vec<u64> = (0..64).filter(|member| has(set, *member)).collect();
    seed.one_of(&all)
}

// ---- all ----------------------------------------------------------------

/// So many drawn tables. True where no answer differs and every kind of table and of period
/// was met.
pub fn laid_command(count: u64, mut seed: Seed) -> bool {
    let mut found = Found::new();
    for turn in 0..count {
        let table = generate::tiny(&mut seed);
        compare_table(&mut seed, &table, turn % 16 == 0, &mut found);
        compare_long_run(&mut seed, &mut found);
    }
    found.print_kinds();
    println!(
        "{} tables with all their runs, both questions at {} periods; {} answers differ",
        count,
        found.words.iter().sum::<u64>(),
        found.differences + found.pressed.differences()
    );
    found.is_good()
}
