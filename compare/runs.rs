//! Runs laid out one by one, as the definitions have them (document 01, "Runs and right periods"), and what is said of
//! their deciders and of their holds (document 02, No. 4 and 9). Their cycles start a period apart, or at any dates
//! (No. 6).
//!
//! For small tables. Nothing here knows of reached modes, of last writers or of walks.

use crate::judge::{has, Table};

// ---- instances ----------------------------------------------------------

/// An operation (by number) that runs in a cycle of a run.
#[derive(Clone, Copy, PartialEq, Eq)]
pub struct Instance {
    pub op: usize,
    pub cycle: u64,
}

impl Instance {
    /// How many cycles another one is away.
    pub fn cycles_to(self, other: Instance) -> u64 {
        self.cycle.abs_diff(other.cycle)
    }
}

/// "Cycle k of a run has the k-th mode (from 0)": all running instances.
fn instances(table: &Table, modes: &[u64]) -> Vec<Instance> {
    let mut all = Vec::new();
    for (cycle, mode) in modes.iter().enumerate() {
        for (op, what) in table.ops.iter().enumerate() {
            if what.runs_in(*mode) {
                all.push(Instance {
                    op,
                    cycle: cycle as u64,
                });
            }
        }
    }
    all
}

/// Where each cycle of a run starts.
pub trait Starts: Copy {
    fn of(self, cycle: u64) -> u64;
}

/// "each operation at t + k·q": cycle k starts at k·q; in the plain run, at k·p.
impl Starts for u64 {
    fn of(self, cycle: u64) -> u64 {
        cycle * self
    }
}

/// "the cycle starts moved accordingly": each cycle at a date of its own.
impl Starts for &[u64] {
    fn of(self, cycle: u64) -> u64 {
        self[cycle as usize]
    }
}

/// An operation of a cycle starts t ticks after the cycle.
fn start_of(table: &Table, who: Instance, starts: impl Starts) -> u64 {
    table.ops[who.op].start + starts.of(who.cycle)
}

/// Where an instance ends when the cycles start so.
fn end_of(table: &Table, who: Instance, starts: impl Starts) -> u64 {
    start_of(table, who, starts) + table.ops[who.op].dur
}

/// Where its boards are free again: "Boards are held until start + duration + hold".
fn free_at(table: &Table, who: Instance, starts: impl Starts) -> u64 {
    end_of(table, who, starts) + table.ops[who.op].hold.unwrap_or(0)
}

/// Both hold their boards at one moment.
fn held_at_once(table: &Table, one: Instance, other: Instance, starts: impl Starts) -> bool {
    start_of(table, one, starts) < free_at(table, other, starts)
        && start_of(table, other, starts) < free_at(table, one, starts)
}

/// Both would hold them at one moment if neither had a hold.
fn overlap_at(table: &Table, one: Instance, other: Instance, starts: impl Starts) -> bool {
    start_of(table, one, starts) < end_of(table, other, starts)
        && start_of(table, other, starts) < end_of(table, one, starts)
}

/// "two different running instances that share a board", each pair once
fn pairs_on_a_board(table: &Table, all: &[Instance]) -> Vec<(Instance, Instance)> {
    let mut pairs = Vec::new();
    for (place, one) in all.iter().enumerate() {
        for other in &all[place + 1..] {
            if table.ops[one.op].boards & table.ops[other.op].boards != 0 {
                pairs.push((*one, *other));
            }
        }
    }
    pairs
}

// ---- values -------------------------------------------------------------

/// "the last write of that cell that ended at or before the reader's start; with
/// none, the initial value", among the writes of all cycles, when these start so.
fn last_ended(
    table: &Table,
    all: &[Instance],
    reader: Instance,
    cell: u64,
    starts: impl Starts,
) -> Option<Instance> {
    let writes = all.iter().filter(|who| has(table.ops[who.op].writes, cell));
    let ended =
        writes.filter(|who| end_of(table, **who, starts) <= start_of(table, reader, starts));
    ended
        .max_by_key(|who| end_of(table, **who, starts))
        .copied()
}

/// The write, as its operation and its cycle, whose value an operation of a cycle
/// would take when cycle k starts at k·q, right or not.
pub fn taken_from(
    table: &Table,
    modes: &[u64],
    reader: (usize, u64),
    cell: u64,
    q: u64,
) -> Option<(usize, u64)> {
    let (op, cycle) = reader;
    let all = instances(table, modes);
    last_ended(table, &all, Instance { op, cycle }, cell, q).map(|write| (write.op, write.cycle))
}

/// A reader of a cell, and the write whose value it takes.
pub struct Source {
    pub cell: u64,
    pub write: Instance,
    pub reader: Instance,
}

/// Each reader's source "as the plain run has it". Two writes of a cell never end
/// together there in an accepted table: in one cycle they would race, and the ends
/// of cycle k's are after k·p and at most (k+1)·p.
fn sources(table: &Table, all: &[Instance]) -> Vec<Source> {
    let mut found = Vec::new();
    for reader in all {
        let reads = table.ops[reader.op].reads;
        for cell in (0..table.cells).filter(|cell| has(reads, *cell)) {
            let write = last_ended(table, all, *reader, cell, table.len);
            found.extend(write.map(|write| Source {
                cell,
                write,
                reader: *reader,
            }));
        }
    }
    found
}

/// The decider in the cycles in which it runs, in their order.
fn deciders(table: &Table, all: &[Instance]) -> Vec<Instance> {
    let is_decider = |who: &Instance| table.decider == Some(who.op as u64);
    all.iter().copied().filter(is_decider).collect()
}

// ---- one run ------------------------------------------------------------

/// A run, laid out.
pub struct Run<'a> {
    pub table: &'a Table,
    pub all: Vec<Instance>,
    cycles: usize,
    pairs: Vec<(Instance, Instance)>,
    pub sources: Vec<Source>,
    deciders: Vec<Instance>,
}

impl<'a> Run<'a> {
    pub fn new(table: &'a Table, modes: &[u64]) -> Run<'a> {
        let all = instances(table, modes);
        Run {
            pairs: pairs_on_a_board(table, &all),
            sources: sources(table, &all),
            deciders: deciders(table, &all),
            cycles: modes.len(),
            table,
            all,
        }
    }

    /// "no two different running instances that share a board overlap, whichever
    /// cycle starts first, the same operation in two cycles included"; of those
    /// pairs that count.
    fn has_right_boards(
        &self,
        starts: impl Starts,
        counts: fn(Instance, Instance) -> bool,
    ) -> bool {
        let meet = |one, other| counts(one, other) && held_at_once(self.table, one, other, starts);
        !self.pairs.iter().any(|(one, other)| meet(*one, *other))
    }

    /// The same of every pair, with all holds taken away.
    fn has_right_bare_boards(&self, starts: impl Starts) -> bool {
        let meet = |one, other| overlap_at(self.table, one, other, starts);
        !self.pairs.iter().any(|(one, other)| meet(*one, *other))
    }

    /// "each reader's source, as the plain run has it, has ended at or before the
    /// reader's start"; of those that count.
    fn has_right_values(
        &self,
        starts: impl Starts,
        counts: fn(Instance, Instance) -> bool,
    ) -> bool {
        let ended = |write, reader| self.is_over(write, reader, starts);
        let mut sources = self.sources.iter();
        sources
            .all(|Source { write, reader, .. }| !counts(*write, *reader) || ended(*write, *reader))
    }

    /// Of this run, with every pair: the boards fit.
    pub fn boards_fit(&self, starts: impl Starts) -> bool {
        self.has_right_boards(starts, any)
    }

    /// Of this run, with every source: the values arrive.
    pub fn values_arrive(&self, starts: impl Starts) -> bool {
        self.has_right_values(starts, any)
    }

    /// How many gaps there are from one cycle to the next.
    pub fn gaps(&self) -> usize {
        self.cycles - 1
    }

    /// One instance has ended when another starts.
    fn is_over(&self, one: Instance, other: Instance, starts: impl Starts) -> bool {
        end_of(self.table, one, starts) <= start_of(self.table, other, starts)
    }

    /// Each cycle has a decider, and "the decider of one cycle never starts before that of
    /// the cycle before has ended".
    pub fn decides_in_turn(&self, q: u64) -> bool {
        let mut neighbours = self.deciders.windows(2);
        self.deciders.len() == self.cycles && neighbours.all(|two| self.is_over(two[0], two[1], q))
    }

    /// The decider of this instance's own cycle has ended when it starts.
    fn is_decided(&self, who: Instance, q: u64) -> bool {
        let mut deciders = self.deciders.iter();
        deciders.any(|decider| decider.cycle == who.cycle && self.is_over(*decider, who, q))
    }

    /// All that does not run in every mode waits for its own cycle's decider.
    pub fn decides_first(&self, q: u64) -> bool {
        let ops = &self.table.ops;
        let in_every_mode = |who: &Instance| self.table.runs_in_every_mode(&ops[who.op]);
        let mut all = self.all.iter();
        all.all(|who| in_every_mode(who) || self.is_decided(*who, q))
    }
}

/// Every pair counts.
fn any(_: Instance, _: Instance) -> bool {
    true
}

/// Only the same operation in two cycles.
fn same_op(one: Instance, other: Instance) -> bool {
    one.op == other.op
}

/// Only what is at most one cycle apart.
fn near(one: Instance, other: Instance) -> bool {
    one.cycles_to(other) <= 1
}

// ---- all runs -----------------------------------------------------------

/// A length of runs that is enough.
///
/// Take a run that is not right at q. Then there are two instances, in cycles k
/// and k + n, that overlap on a board, or of which the one in cycle k is the
/// source of the reader in cycle k + n and has not ended at its start. (A source
/// is never in a later cycle than its reader: it would end after the reader's
/// cycle is over.) Such an instance of cycle k ends by k·q + p, its hold included
/// ("which may not pass p"), and cycle k + n starts at (k + n)·q, so n·q is below p:
/// n is at most p - 1.
///
/// Drop all cycles after k + n: a shorter run, with the same two instances, and
/// the same source, since no write of a later cycle has ended at the reader's
/// start. Put in the place of the cycles before k a shortest way from a first
/// mode to the mode of cycle k; it has at most modes - 1 cycles, since it needs no
/// mode twice. The source stays, since every write of an earlier cycle ended
/// before it. The overlap stays too. This run has at most
/// (modes - 1) + 1 + (p - 1) cycles and is not right at q.
///
/// Cycles put behind a run that is not right leave it so, for the same reasons, and
/// every mode has a follower: the runs of just this length are enough.
///
/// With gaps that are each at least g it is the same, with g for q: cycle k + n starts
/// at least n·g after cycle k. The gaps from cycle k to k + n stay; those before it may
/// be any.
pub fn enough_cycles(table: &Table) -> usize {
    (table.modes + table.len - 1) as usize
}

/// See this run, made longer in every way to so many cycles.
fn each_longer_run(
    table: &Table,
    modes: &mut Vec<u64>,
    cycles: usize,
    see: &mut dyn FnMut(&Run<'_>),
) {
    if modes.len() == cycles {
        return see(&Run::new(table, modes));
    }
    let follow = table.follow[modes[modes.len() - 1] as usize];
    for next in (0..table.modes).filter(|mode| has(follow, *mode)) {
        modes.push(next);
        each_longer_run(table, modes, cycles, see);
        modes.pop();
    }
}

/// "The first is a first mode; each next one may follow the one before": see every
/// run of so many cycles.
pub fn each_run(table: &Table, cycles: usize, see: &mut dyn FnMut(&Run<'_>)) {
    for mode in (0..table.modes).filter(|mode| has(table.first, *mode)) {
        each_longer_run(table, &mut vec![mode], cycles, see);
    }
}

/// The periods at which runs are wrong, by what is wrong: a set has q when its bit q
/// is set. The table has at most 63 ticks.
#[derive(Default)]
pub struct Wrong {
    /// Two instances hold a board.
    pub boards: u64,
    /// They are of one operation.
    pub own_boards: u64,
    /// They are at most one cycle apart.
    pub near_boards: u64,
    /// Two instances would hold a board without any hold.
    pub bare_boards: u64,
    /// A reader's source has not ended.
    pub values: u64,
    /// It is at most one cycle earlier.
    pub near_values: u64,
    /// Of a table with a decider: a cycle has none, or it starts before that of the cycle
    /// before has ended.
    pub turns: u64,
    /// Of a table with a decider: something that does not run in every mode starts before
    /// it has ended.
    pub early: u64,
}

impl Wrong {
    /// What a run adds. Where the boards fit with every pair, they fit with some of them, and so
    /// it is with the values; without holds they are looked at by themselves.
    pub fn note(&mut self, run: &Run<'_>) {
        let has_hold = run.table.ops.iter().any(|op| op.hold.is_some());
        for q in 1..=run.table.len {
            let note = |set: &mut u64, right: bool| *set |= u64::from(!right) << q;
            if !run.boards_fit(q) {
                note(&mut self.boards, false);
                note(&mut self.own_boards, run.has_right_boards(q, same_op));
                note(&mut self.near_boards, run.has_right_boards(q, near));
            }
            if has_hold {
                note(&mut self.bare_boards, run.has_right_bare_boards(q));
            }
            if !run.values_arrive(q) {
                note(&mut self.values, false);
                note(&mut self.near_values, run.has_right_values(q, near));
            }
            if run.table.decider.is_some() {
                note(&mut self.turns, run.decides_in_turn(q));
                note(&mut self.early, run.decides_first(q));
            }
        }
        if !has_hold {
            self.bare_boards = self.boards;
        }
    }

    /// All that are not right: "A period q .. is *right* when, in every run, .." both hold.
    pub fn all(&self) -> u64 {
        self.boards | self.values
    }
}

/// "The period is the smallest right q": the smallest that is not in the set.
pub fn smallest(wrong: u64) -> u64 {
    (1..64)
        .find(|q| !has(wrong, *q))
        .expect("a table of at most 63 ticks")
}

/// The period of a table, by all its runs.
pub fn period(table: &Table) -> u64 {
    let mut wrong = Wrong::default();
    each_run(table, enough_cycles(table), &mut |run| wrong.note(run));
    smallest(wrong.all())
}
