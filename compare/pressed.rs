//! Cycles started by a button (document 02, No. 6): runs of small tables, laid out with gaps from cycle to cycle that are
//! drawn, beside the gap that is told. "Give the smallest gap from 1 to p such that every sequence of gaps, each at least
//! that long, is right in every run, with rightness as in document 01 and the cycle starts moved accordingly."
//!
//! Whether a sequence is right in a run is judged by its dates alone, in `runs`. Nothing here asks how far the ends of
//! steps are from the starts of others.

use crate::answers;
use crate::counts;
use crate::findings::said_of;
use crate::gaps;
use crate::generate::Seed;
use crate::holds::without_holds;
use crate::judge::{bytes_of, has, judge_table, Op, Table};
use crate::kinds::Shown;
use crate::laid::{drawn_member, drawn_run};
use crate::library::Said;
use crate::runs::{each_run, enough_cycles, Run};

/// Who is asked for the gap of a table's bytes: the library, or in a test another one.
pub type Ask = fn(&mut [u8]) -> Said;

// ---- sequences of gaps --------------------------------------------------

/// Where the cycles start that have these gaps between them; the first one at 0.
fn starts_of(gaps: &[u64]) -> Vec<u64> {
    let mut starts = vec![0];
    for (cycle, gap) in gaps.iter().enumerate() {
        starts.push(starts[cycle] + gap);
    }
    starts
}

/// "rightness as in document 01": of one run, with these gaps.
fn is_right(run: &Run<'_>, gaps: &[u64]) -> bool {
    let starts = &starts_of(gaps)[..];
    run.boards_fit(starts) && run.values_arrive(starts)
}

/// So many gaps, each at least `least`: all that long but one; some longer by a tick or two; or any, up to a little above
/// p.
fn drawn_gaps(seed: &mut Seed, least: u64, p: u64, count: usize) -> Vec<u64> {
    let mut gaps = vec![least; count];
    match seed.below(3) {
        0 if count > 0 => gaps[seed.below(count as u64) as usize] = seed.between(least, p + 1),
        1 => gaps.iter_mut().for_each(|gap| *gap += seed.below(3)),
        _ => gaps
            .iter_mut()
            .for_each(|gap| *gap = seed.between(least, p + 2)),
    }
    gaps
}

/// All sequences of so many gaps from `least` to p. A gap that is longer than p is as right as one of p: all boards of
/// the cycles before it are free by then, all their values have arrived, and no two cycles on the same side of it move.
fn all_gaps(least: u64, p: u64, count: usize) -> Vec<Vec<u64>> {
    let mut all = vec![Vec::new()];
    for _ in 0..count {
        let mut longer = Vec::new();
        for gaps in &all {
            longer.extend((least..=p).map(|gap| [&gaps[..], &[gap]].concat()));
        }
        all = longer;
    }
    all
}

/// The sequences of so many gaps of `least`, one of them longer, up to p.
fn one_longer(least: u64, p: u64, count: usize) -> Vec<Vec<u64>> {
    let longer = move |place: usize| {
        (least + 1..=p).map(move |gap| {
            let mut gaps = vec![least; count];
            gaps[place] = gap;
            gaps
        })
    };
    (0..count).flat_map(longer).collect()
}

// ---- one below the gap --------------------------------------------------

/// What is found wrong with gaps that are each at least one below the gap.
#[derive(Clone, Copy, PartialEq, Eq)]
enum Below {
    /// The gap is 1.
    Nothing,
    /// Some run, with all gaps that long.
    Equal,
    /// No run with all gaps that long; the boards of some run where one gap is longer.
    Unequal,
    /// Nothing, as if it served.
    NotFound,
}

/// Runs with gaps that are all so long but one, which is longer, one after the other until the boards of one do not fit;
/// false where there is none. Where all values arrive at equal gaps of that length, so they do here.
fn is_wrong_with_one_longer(table: &Table, least: u64, found: &mut Found) -> bool {
    let sequences = one_longer(least, table.len, enough_cycles(table) - 1);
    let mut wrong = false;
    each_run(table, enough_cycles(table), &mut |run| {
        let mut all = sequences.iter();
        wrong = wrong
            || all.any(|gaps| {
                let starts = &starts_of(gaps)[..];
                let arrive = run.values_arrive(starts);
                found.check(arrive, "values lost by a longer gap", least, table);
                !run.boards_fit(starts)
            });
    });
    wrong
}

fn below(shown: &Shown<'_>, gap: u64, found: &mut Found) -> Below {
    match gap {
        1 => Below::Nothing,
        _ if has(shown.wrong.all(), gap - 1) => Below::Equal,
        _ if is_wrong_with_one_longer(shown.table, gap - 1, found) => Below::Unequal,
        _ => Below::NotFound,
    }
}

// ---- kinds of tables ----------------------------------------------------

/// What all runs of a table show, the gap that is told, and what is wrong one below it.
struct Told<'a> {
    shown: &'a Shown<'a>,
    gap: u64,
    below: Below,
}

impl Told<'_> {
    fn p(&self) -> u64 {
        self.shown.table.len
    }

    fn period(&self) -> u64 {
        self.shown.period()
    }

    /// The gap is above 1, and equal gaps of one less have wrong boards or not, and wrong values or not.
    fn is_equal_below(&self, boards: bool, values: bool) -> bool {
        let wrong = &self.shown.wrong;
        let is_wrong = |set: u64| has(set, self.gap - 1);
        self.below == Below::Equal
            && is_wrong(wrong.boards) == boards
            && is_wrong(wrong.values) == values
    }

    /// The gap that cycles ask for which are one apart. With every gap from it on they are right, and that is a period
    /// for them.
    fn near_gap(&self) -> u64 {
        let near = self.shown.wrong.near_boards | self.shown.wrong.near_values;
        let wrong = (1..=self.p()).filter(|gap| has(near, *gap));
        wrong.max().unwrap_or(0) + 1
    }

    /// The gap is above 1, and cycles two or more apart ask for all of it.
    fn is_far(&self) -> bool {
        self.near_gap() < self.gap
    }

    /// The planner's gap of the table as it is changed, which is not judged again.
    fn changed_gap(&self, change: fn(&mut Table)) -> u64 {
        let mut table = self.shown.table.clone();
        change(&mut table);
        gaps::gap(&table)
    }
}

/// A kind: its name, and whether a table is of it.
type Kind = (&'static str, fn(&Told<'_>) -> bool);

const KINDS: [Kind; 19] = [
    ("gap 1", |told| told.gap == 1),
    ("a gap above 1 that is the period", |told| {
        told.gap > 1 && told.gap == told.period()
    }),
    ("a gap above the period", |told| told.gap > told.period()),
    ("a gap between the period and p", |told| {
        told.period() < told.gap && told.gap < told.p()
    }),
    ("a gap of p", |told| told.gap > 1 && told.gap == told.p()),
    ("a gap of p, 4 or more, where the period is 2", |told| {
        told.p() >= 4 && told.gap == told.p() && told.period() == 2
    }),
    ("a gap of p, 3 or more, where the period is 1", |told| {
        told.p() >= 3 && told.gap == told.p() && told.period() == 1
    }),
    ("one below the gap, equal gaps, boards wrong", |told| {
        told.is_equal_below(true, false)
    }),
    ("one below the gap, equal gaps, values wrong", |told| {
        told.is_equal_below(false, true)
    }),
    ("one below the gap, equal gaps, both wrong", |told| {
        told.is_equal_below(true, true)
    }),
    (
        "one below the gap, equal gaps right, unequal ones wrong",
        |told| told.below == Below::Unequal,
    ),
    ("a gap above the period, cycles one apart decide", |told| {
        told.gap > told.period() && !told.is_far()
    }),
    ("cycles one apart decide", |told| {
        told.gap > 1 && !told.is_far()
    }),
    ("cycles two or more apart decide", |told| told.is_far()),
    ("boards two or more cycles apart decide", |told| {
        told.is_far() && (told.below == Below::Unequal || told.is_equal_below(true, false))
    }),
    ("values carried two or more cycles decide", |told| {
        told.is_far() && told.is_equal_below(false, true)
    }),
    ("a gap that is shorter without holds", |told| {
        gaps::gap(&without_holds(told.shown.table)) < told.gap
    }),
    (
        "a gap that would be longer if every mode was reached",
        |told| told.changed_gap(|table| table.first = (1 << table.modes) - 1) > told.gap,
    ),
    ("a gap above 1, a step decides the mode", |told| {
        told.gap > 1 && told.shown.table.decider.is_some()
    }),
];

/// Tables of which all sequences of gaps are laid out, and better known tables by what becomes of the gap.
const ALL_SEQUENCES: &str = "all sequences of gaps laid out, some of them unequal";
const SHORTER: &str = "better known, a shorter gap";
const SAME: &str = "better known, the same gap above 1";

// ---- what was found -----------------------------------------------------

/// How often each kind was met; how many answers differ from the planner's, and how many from what runs show.
pub struct Found {
    most_printed: u64,
    kinds: [u64; KINDS.len()],
    all_sequences: u64,
    shorter: u64,
    same: u64,
    sequences: u64,
    pub by_planner: u64,
    pub by_runs: u64,
}

impl Found {
    /// Nothing so far. So many differences are printed.
    pub fn new(most_printed: u64) -> Found {
        Found {
            most_printed,
            kinds: [0; KINDS.len()],
            all_sequences: 0,
            shorter: 0,
            same: 0,
            sequences: 0,
            by_planner: 0,
            by_runs: 0,
        }
    }

    pub fn differences(&self) -> u64 {
        self.by_planner + self.by_runs
    }

    fn print_difference(&self, what: &str, table: &Table) {
        if self.differences() <= self.most_printed {
            println!("{} of {:?}", what, table);
        }
    }

    /// What is told beside what the planner says.
    fn check_planner(&mut self, said: Said, table: &Table) {
        let gap = gaps::gap(table);
        let due = Said {
            number: 0,
            a: gap,
            b: 0,
        };
        if said != due {
            self.by_planner += 1;
            self.print_difference(&format!("{:?} said, gap {} planned,", said, gap), table);
        }
    }

    /// What runs show.
    fn check(&mut self, good: bool, what: &str, gap: u64, table: &Table) {
        if !good {
            self.by_runs += 1;
            self.print_difference(&format!("gap {}, {},", gap, what), table);
        }
    }

    /// One run with one sequence of gaps is right.
    fn check_run(&mut self, run: &Run<'_>, gaps: &[u64], gap: u64) {
        self.sequences += 1;
        let good = is_right(run, gaps);
        if !good {
            self.check(good, &format!("run with gaps {:?}", gaps), gap, run.table);
        }
    }

    fn all(&self) -> Vec<(&'static str, u64)> {
        let kinds = KINDS.iter().map(|(name, _)| *name).zip(self.kinds);
        let others = [
            (ALL_SEQUENCES, self.all_sequences),
            (SHORTER, self.shorter),
            (SAME, self.same),
        ];
        kinds.chain(others).collect()
    }

    /// A line for each kind, and one more for each that was not met.
    pub fn print(&self) {
        counts::print_all(&self.all());
        let missed = counts::missed_of(&self.all());
        missed.iter().for_each(|line| println!("{}", line));
        println!(
            "{} runs with gaps that are at least the gap; {} gaps differ from the planner's, {} from what runs show",
            self.sequences, self.by_planner, self.by_runs
        );
    }

    /// Nothing differs, and every kind was met.
    pub fn is_good(&self) -> bool {
        self.differences() == 0 && counts::missed_of(&self.all()).is_empty()
    }
}

// ---- runs at the gap and above it ---------------------------------------

/// How many sequences are laid out for each run at the gap.
const DRAWN: usize = 2;

/// How many runs with a sequence of gaps each are laid out at most, where all sequences are.
const MOST_LAID: u64 = 3000;

/// Each run with drawn sequences of gaps from this one on, and with one from a longer gap up to p: "every longer gap up
/// to p also serves".
fn check_drawn(seed: &mut Seed, table: &Table, gap: u64, found: &mut Found) {
    each_run(table, enough_cycles(table), &mut |run| {
        for _ in 0..DRAWN {
            let gaps = drawn_gaps(seed, gap, table.len, run.gaps());
            found.check_run(run, &gaps, gap);
        }
        let longer = seed.between(gap, table.len);
        let gaps = drawn_gaps(seed, longer, table.len, run.gaps());
        found.check_run(run, &gaps, gap);
    });
}

/// Where there are not too many: each run with all sequences of gaps from this one up to p.
fn check_all(table: &Table, gap: u64, found: &mut Found) {
    let count = enough_cycles(table) - 1;
    let each = (table.len - gap + 1).saturating_pow(count as u32);
    let mut runs = 0;
    if each <= MOST_LAID {
        each_run(table, count + 1, &mut |_| runs += 1);
    }
    if runs == 0 || runs * each > MOST_LAID {
        return;
    }
    let all = all_gaps(gap, table.len, count);
    each_run(table, count + 1, &mut |run| {
        all.iter().for_each(|gaps| found.check_run(run, gaps, gap));
    });
    found.all_sequences += u64::from(gap < table.len && count > 1);
}

// ---- better knowledge ---------------------------------------------------

/// A part of a set, not empty, or all of it.
fn drawn_part(seed: &mut Seed, set: u64) -> u64 {
    match seed.below(3) {
        0 => set & seed.draw() | 1 << drawn_member(seed, set),
        _ => set,
    }
}

/// A step that lasts as long or less, is held as long or less, and has some of its boards.
fn better_op(seed: &mut Seed, op: &Op) -> Op {
    let dur = match seed.below(3) {
        0 => seed.between(1, op.dur),
        _ => op.dur,
    };
    let hold = op.hold.map(|hold| match seed.below(3) {
        0 => seed.between(0, hold),
        _ => hold,
    });
    Op {
        dur,
        hold: hold.filter(|hold| *hold > 0),
        boards: drawn_part(seed, op.boards),
        ..op.clone()
    }
}

/// A table that is known better, as demand 3 has it: no step lasts longer, is held longer or uses a board that it did not
/// use, and no turn and no first mode is permitted that was not. All else is the same.
fn better(seed: &mut Seed, table: &Table) -> Table {
    Table {
        first: drawn_part(seed, table.first),
        follow: table
            .follow
            .iter()
            .map(|set| drawn_part(seed, *set))
            .collect(),
        ops: table.ops.iter().map(|op| better_op(seed, op)).collect(),
        ..table.clone()
    }
}

/// "Demand 3 holds for the gap in the same words": each gap that serves the first table serves the second, so the
/// second's is no longer. A run of the second, laid out with gaps that serve the first.
fn check_better(ask: Ask, seed: &mut Seed, table: &Table, gap: u64, found: &mut Found) {
    let second = better(seed, table);
    found.check(
        judge_table(&second).is_ok(),
        "better, refused",
        gap,
        &second,
    );
    let said = ask(&mut bytes_of(&second));
    found.check_planner(said, &second);
    found.check(
        said.a <= gap,
        "a longer gap of a better table",
        gap,
        &second,
    );
    found.shorter += u64::from(said.a < gap);
    found.same += u64::from(said.a == gap && gap > 1);
    let run = drawn_run(seed, &second);
    check_long_run(seed, &Run::new(&second, &run), gap, found);
}

// ---- tables -------------------------------------------------------------

/// One run with drawn gaps from this one on.
fn check_long_run(seed: &mut Seed, run: &Run<'_>, gap: u64, found: &mut Found) {
    for _ in 0..DRAWN {
        let gaps = drawn_gaps(seed, gap, run.table.len, run.gaps());
        found.check_run(run, &gaps, gap);
    }
}

/// The gap that is told for a table; none where what is told is no gap.
fn told_gap(ask: Ask, table: &Table, found: &mut Found) -> Option<u64> {
    let said = ask(&mut bytes_of(table));
    found.check_planner(said, table);
    let good = said.number == 0 && said.b == 0 && 1 <= said.a && said.a <= table.len;
    found.check(good, "no gap from 1 to p", said.a, table);
    good.then(|| said.a)
}

/// A table with all its runs, as `shown` has them: "the gap is never below the period", "every longer gap up to p also
/// serves", also with equal gaps, and one less does not.
pub fn compare_table(ask: Ask, seed: &mut Seed, shown: &Shown<'_>, found: &mut Found) {
    let table = shown.table;
    let gap = match told_gap(ask, table, found) {
        Some(gap) => gap,
        None => return,
    };
    found.check(gap >= shown.period(), "below the period", gap, table);
    let equal = (gap..=table.len).all(|gap| !has(shown.wrong.all(), gap));
    found.check(equal, "equal gaps", gap, table);
    check_drawn(seed, table, gap, found);
    check_all(table, gap, found);
    let below = below(shown, gap, found);
    found.check(below != Below::NotFound, "one less serves too", gap, table);
    let told = Told { shown, gap, below };
    for (count, (_, is_met)) in found.kinds.iter_mut().zip(KINDS) {
        *count += u64::from(is_met(&told));
    }
    check_better(ask, seed, table, gap, found);
}

/// A larger table, and one of its runs.
pub fn compare_long_run(ask: Ask, seed: &mut Seed, run: &Run<'_>, period: u64, found: &mut Found) {
    if let Some(gap) = told_gap(ask, run.table, found) {
        found.check(gap >= period, "below the period", gap, run.table);
        check_long_run(seed, run, gap, found);
    }
}

/// The planner's gap of a table is what its runs show, of which there are not too many.
pub fn is_found_by_runs(table: &Table) -> bool {
    let planner: Ask = |bytes| said_of(answers::gap(bytes).map(|gap| gap as usize));
    let enough = enough_cycles(table);
    let shown = Shown::by_runs(table, enough..=enough);
    let mut found = Found::new(0);
    compare_table(planner, &mut Seed::new(1), &shown, &mut found);
    found.differences() == 0
}
