//! Kinds of tables on which a planner that knows of walks only may be wrong. Of each
//! table it is the runs, laid out, that tell its kinds.

use crate::judge::{has, Op, Table, MOST_OPS};
use crate::runs::{self, smallest, Run, Source, Wrong};

/// What all runs of a table show.
pub struct Shown<'a> {
    pub table: &'a Table,
    /// The operations that run in some cycle of some run.
    ran: u64,
    /// The cells that an operation takes from its own cycle, and those that it
    /// takes from an earlier one.
    own: [u64; MOST_OPS],
    carried: [u64; MOST_OPS],
    /// A value is taken two or more cycles later.
    is_carried_far: bool,
    /// A value is taken from an earlier cycle that writes its cell twice.
    is_rewritten: bool,
    pub wrong: Wrong,
}

impl<'a> Shown<'a> {
    fn nothing(table: &'a Table) -> Shown<'a> {
        Shown {
            table,
            ran: 0,
            own: [0; MOST_OPS],
            carried: [0; MOST_OPS],
            is_carried_far: false,
            is_rewritten: false,
            wrong: Wrong::default(),
        }
    }

    /// By all runs of so many cycles, for each of the lengths.
    pub fn by_runs(table: &'a Table, lengths: impl Iterator<Item = usize>) -> Shown<'a> {
        let mut shown = Shown::nothing(table);
        for cycles in lengths {
            runs::each_run(table, cycles, &mut |run| shown.note(run));
        }
        shown
    }

    /// What a run adds.
    fn note(&mut self, run: &Run<'_>) {
        self.ran = run.all.iter().fold(self.ran, |ran, who| ran | 1 << who.op);
        for source in &run.sources {
            self.note_source(run, source);
        }
        self.wrong.note(run);
    }

    fn note_source(&mut self, run: &Run<'_>, source: &Source) {
        let Source {
            cell,
            write,
            reader,
        } = source;
        let cycles = write.cycles_to(*reader);
        if cycles == 0 {
            self.own[reader.op] |= 1 << cell;
            return;
        }
        self.carried[reader.op] |= 1 << cell;
        self.is_carried_far |= cycles > 1;
        self.is_rewritten |= run.all.iter().any(|who| {
            who.cycle == write.cycle && who != write && has(run.table.ops[who.op].writes, *cell)
        });
    }

    pub fn period(&self) -> u64 {
        smallest(self.wrong.all())
    }

    /// Without any hold.
    pub fn bare_period(&self) -> u64 {
        smallest(self.wrong.bare_boards | self.wrong.values)
    }
}

// ---- the kinds ----------------------------------------------------------

/// A kind: its name, and whether a table is of it.
type Kind = (&'static str, fn(&Shown<'_>) -> bool);

pub const KINDS: [Kind; 25] = [
    (
        "a mode that no run reaches, and an operation only there that would ask for more",
        asks_unreached,
    ),
    ("a value carried from an earlier cycle", |shown| {
        shown.carried.iter().any(|cells| *cells != 0)
    }),
    (
        "a value carried across a mode in which nobody writes its cell",
        |shown| shown.is_carried_far,
    ),
    (
        "a cell that one operation takes from its own cycle and from an earlier one",
        takes_both_ways,
    ),
    (
        "a cell written twice in the cycle that it is carried from",
        |shown| shown.is_rewritten,
    ),
    ("a wrong period above a right one", is_wrong_above_right),
    ("the boards alone decide", |shown| {
        decides(shown, true, false)
    }),
    ("the values alone decide", |shown| {
        decides(shown, false, true)
    }),
    ("boards and values ask for the same", |shown| {
        decides(shown, true, true)
    }),
    (
        "boards and values together ask for more than either",
        |shown| decides(shown, false, false),
    ),
    ("cycles two or more apart decide", is_decided_far),
    ("boards two or more cycles apart decide", has_far_boards),
    ("values carried two or more cycles decide", has_far_values),
    ("an operation that decides the mode", |shown| {
        shown.table.decider.is_some()
    }),
    (
        "a decider that starts before that of the cycle before has ended, at a wrong period",
        |shown| shown.wrong.turns != 0,
    ),
    (
        "a decider that alone asks for all of the period",
        is_asked_by_decider,
    ),
    (
        "an operation that waits for the decider and starts when it has ended",
        |shown| {
            any_beside(shown, |table, decider, op| {
                !table.runs_in_every_mode(op) && op.start == decider.end()
            })
        },
    ),
    (
        "an operation in every mode that does not wait for the decider",
        |shown| {
            any_beside(shown, |table, decider, op| {
                table.modes > 1 && op.start < decider.end()
            })
        },
    ),
    ("an operation with a hold", has_hold),
    ("a hold in every operation", |shown| {
        shown.table.ops.iter().all(|op| op.hold.is_some())
    }),
    ("holds that make the period longer", |shown| {
        shown.bare_period() < shown.period()
    }),
    ("holds that leave a period above 1 as it is", |shown| {
        has_hold(shown) && shown.bare_period() == shown.period() && shown.period() > 1
    }),
    (
        "a hold that one operation asks for by itself",
        is_asked_by_hold,
    ),
    (
        "a cell that is used while the one that wrote it holds its boards after its end",
        is_used_in_hold,
    ),
    (
        "an operation that waits for the decider's end and starts in its hold",
        |shown| {
            any_beside(shown, |table, decider, op| {
                let in_hold = decider.end() <= op.start && op.start < decider.held_to();
                !table.runs_in_every_mode(op) && in_hold
            })
        },
    ),
];

fn has_hold(shown: &Shown<'_>) -> bool {
    shown.table.ops.iter().any(|op| op.hold.is_some())
}

/// The longer period is asked for by the cycles of one operation, with its hold.
fn is_asked_by_hold(shown: &Shown<'_>) -> bool {
    let period = shown.period();
    shown.bare_period() < period && smallest(shown.wrong.own_boards) == period
}

/// Some other operation reads what one wrote, in the same mode, and starts in that one's hold.
fn is_used_in_hold(shown: &Shown<'_>) -> bool {
    let ops = &shown.table.ops;
    let uses = |one: &Op, other: &Op| {
        let in_hold = one.end() <= other.start && other.start < one.held_to();
        in_hold && one.modes & other.modes != 0 && one.writes & other.reads != 0
    };
    ops.iter()
        .any(|one| ops.iter().any(|other| uses(one, other)))
}

/// With every mode a first mode, the operations that no run has make the period
/// larger.
fn asks_unreached(shown: &Shown<'_>) -> bool {
    let table = shown.table;
    let every = Table {
        first: (1 << table.modes) - 1,
        decider: None,
        ..table.clone()
    };
    let ran = (0..).zip(&table.ops).filter(|(op, _)| has(shown.ran, *op));
    let fewer = Table {
        ops: ran.map(|(_, op)| op.clone()).collect(),
        ..every.clone()
    };
    fewer.ops.len() < table.ops.len() && runs::period(&fewer) < runs::period(&every)
}

fn takes_both_ways(shown: &Shown<'_>) -> bool {
    let mut cells = shown.own.iter().zip(shown.carried);
    cells.any(|(own, carried)| own & carried != 0)
}

fn is_wrong_above_right(shown: &Shown<'_>) -> bool {
    (shown.period()..=shown.table.len).any(|q| has(shown.wrong.all(), q))
}

/// The period is above 1; the boards alone ask for all of it or not, and the values
/// alone likewise.
fn decides(shown: &Shown<'_>, by_boards: bool, by_values: bool) -> bool {
    let period = shown.period();
    period > 1
        && by_boards == (smallest(shown.wrong.boards) == period)
        && by_values == (smallest(shown.wrong.values) == period)
}

/// The period would be smaller if only cycles one apart were compared.
fn is_decided_far(shown: &Shown<'_>) -> bool {
    smallest(shown.wrong.near_boards | shown.wrong.near_values) < shown.period()
}

/// It would be smaller if boards of cycles one apart only were compared.
fn has_far_boards(shown: &Shown<'_>) -> bool {
    smallest(shown.wrong.near_boards | shown.wrong.values) < shown.period()
}

/// It would be smaller if values were carried over one turn only.
fn has_far_values(shown: &Shown<'_>) -> bool {
    smallest(shown.wrong.boards | shown.wrong.near_values) < shown.period()
}

/// The period is above 1, and the decider asks for all of it by its own turns.
fn is_asked_by_decider(shown: &Shown<'_>) -> bool {
    shown.period() > 1 && smallest(shown.wrong.turns) == shown.period()
}

/// Some operation beside the decider, which is handed over with it.
fn any_beside(shown: &Shown<'_>, test: fn(&Table, &Op, &Op) -> bool) -> bool {
    let table = shown.table;
    table.decider.map_or(false, |number| {
        let decider = &table.ops[number as usize];
        let mut others = (0..).zip(&table.ops).filter(|(one, _)| *one != number);
        others.any(|(_, op)| test(table, decider, op))
    })
}
