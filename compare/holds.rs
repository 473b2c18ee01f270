//! Kinds of inputs that have to do with a hold (document 02, No. 9), as the planner reads and
//! judges them, and how often each was met.

use crate::counts::{self, Kind};
use crate::judge::{behind_ops, clash, judge_table, number_in, op_in, race, read_numbers};
use crate::judge::{read_table, Numbers, Op, Refusal, Table, CLASH, EARLY, HOLDS_PER_OP, MANY};
use crate::judge::{MOST_OPS, NUMBERS_PER_OP, OP_LENGTHS, ORDER, RACE, RANGE, SHORT, SIZE};
use crate::walks::period;

/// What all of these have in common.
const COMMON: &str = "with a hold";

// ---- tables -------------------------------------------------------------

/// The longest table whose period is looked for here.
const SMALL: u64 = 16;

/// A table with a hold whose fields are all good, and what is refused of it then.
struct Whole<'a> {
    table: &'a Table,
    refusal: Option<Refusal>,
}

/// The operation as if its field had 18 bytes.
fn bare(op: &Op) -> Op {
    let hold = None;
    Op { hold, ..op.clone() }
}

/// The operation as if it lasted until its boards are free.
fn longer(op: &Op) -> Op {
    let dur = op.held_to() - op.start;
    Op { dur, ..bare(op) }
}

/// The table without any hold.
pub fn without_holds(table: &Table) -> Table {
    let ops = table.ops.iter().map(bare).collect();
    Table {
        ops,
        ..table.clone()
    }
}

impl Whole<'_> {
    fn is_accepted(&self) -> bool {
        self.refusal.is_none()
    }

    fn is_refused(&self, number: u32) -> bool {
        self.refusal.map(|refusal| refusal.number) == Some(number)
    }

    /// It is accepted, and one of its operations with a hold is so.
    fn accepted_with(&self, test: impl Fn(&Op) -> bool) -> bool {
        let mut held = self.table.ops.iter().filter(|op| op.hold.is_some());
        self.is_accepted() && held.any(test)
    }

    /// It is accepted, and an operation with a hold and another are so.
    fn accepted_pair(&self, test: impl Fn(&Op, &Op) -> bool) -> bool {
        let others = |one: &Op| self.table.ops.iter().any(|other| test(one, other));
        self.accepted_with(others)
    }

    /// The lower and the higher operation that clash, where that is what is refused.
    fn clashing(&self) -> Option<(&Op, &Op)> {
        let refusal = self.refusal.filter(|it| it.number == CLASH)?;
        let op = |number| &self.table.ops[number as usize];
        Some((op(refusal.a), op(refusal.b)))
    }

    /// What is refused of it without any hold.
    fn bare_refusal(&self) -> Option<u32> {
        let refusal = judge_table(&without_holds(self.table)).err();
        refusal.map(|refusal| refusal.number)
    }

    /// It is refused for a clash, and would be refused so without any hold.
    fn clash_before(&self, number: u32) -> bool {
        self.is_refused(CLASH) && self.bare_refusal() == Some(number)
    }

    /// It is accepted and small, and this is so of its period and of that without any hold.
    fn periods(&self, test: fn(u64, u64) -> bool) -> bool {
        self.is_accepted()
            && self.table.len <= SMALL
            && test(period(self.table), period(&without_holds(self.table)))
    }

    fn decider(&self) -> Option<&Op> {
        let number = self.table.decider?;
        Some(&self.table.ops[number as usize])
    }

    /// An operation does not run in every mode, and starts while the decider's boards are held
    /// after its end.
    fn is_settling(&self, op: &Op) -> bool {
        self.decider().map_or(false, |decider| {
            let settling = decider.end() <= op.start && op.start < decider.held_to();
            settling && !self.table.runs_in_every_mode(op)
        })
    }
}

/// They share a board and a mode.
fn share_board(one: &Op, other: &Op) -> bool {
    one.boards & other.boards != 0 && one.modes & other.modes != 0
}

/// A kind of tables: its name, and whether a table is of it.
type OfTable = (&'static str, fn(&Whole<'_>) -> bool);

const OF_TABLES: [OfTable; 17] = [
    ("accepted", |whole| whole.is_accepted()),
    ("accepted, both forms mixed", |whole| {
        whole.is_accepted() && whole.table.ops.iter().any(|op| op.hold.is_none())
    }),
    ("accepted, 32 holds", |whole| {
        let held = whole.table.ops.iter().filter(|op| op.hold.is_some());
        whole.is_accepted() && held.count() == MOST_OPS
    }),
    ("accepted, a hold up to p", |whole| {
        whole.accepted_with(|op| op.held_to() == whole.table.len)
    }),
    ("accepted, another starts behind it", |whole| {
        whole.accepted_pair(|one, other| share_board(one, other) && one.held_to() == other.start)
    }),
    ("accepted, another board in its hold", |whole| {
        let in_hold =
            |one: &Op, other: &Op| one.end() <= other.start && other.start < one.held_to();
        whole.accepted_pair(|one, other| in_hold(one, other) && one.modes & other.modes != 0)
    }),
    ("accepted, its cell used in its hold", |whole| {
        whole.accepted_pair(|one, other| one != other && race(&longer(one), other))
    }),
    ("accepted, waits only for the end", |whole| {
        whole.is_accepted() && whole.table.ops.iter().any(|op| whole.is_settling(op))
    }),
    ("accepted, a longer period", |whole| {
        whole.periods(|held, bare| held > bare)
    }),
    ("accepted, the same period above 1", |whole| {
        whole.periods(|held, bare| held == bare && bare > 1)
    }),
    ("CLASH by the lower one's hold", |whole| {
        let by_lower =
            |(low, high): (&Op, &Op)| !clash(&bare(low), high) && clash(low, &bare(high));
        whole.clashing().map_or(false, by_lower)
    }),
    ("CLASH by the higher one's hold", |whole| {
        let by_higher =
            |(low, high): (&Op, &Op)| !clash(low, &bare(high)) && clash(&bare(low), high);
        whole.clashing().map_or(false, by_higher)
    }),
    ("CLASH by a tick of a hold", |whole| {
        let by_a_tick =
            |one: &Op, other: &Op| one.hold.is_some() && one.held_to() == other.start + 1;
        let clashing = whole.clashing();
        clashing.map_or(false, |(low, high)| {
            by_a_tick(low, high) || by_a_tick(high, low)
        })
    }),
    ("CLASH by a hold before RACE", |whole| {
        whole.clash_before(RACE)
    }),
    ("CLASH by a hold before EARLY", |whole| {
        whole.clash_before(EARLY)
    }),
    ("RACE", |whole| whole.is_refused(RACE)),
    ("EARLY, the decider has one", |whole| {
        let decider = whole.decider().map(|decider| decider.hold.is_some());
        whole.is_refused(EARLY) && decider == Some(true)
    }),
];

// ---- fields -------------------------------------------------------------

/// A field that is refused, in bytes or as it would be written: its tag and length, where it has
/// them; the operation, where all its numbers are there; the table's length, and the operations
/// before the field.
struct Field {
    refusal: Refusal,
    tag: Option<u8>,
    length: Option<u64>,
    op: Option<Op>,
    p: u64,
    before: Vec<Op>,
}

impl Field {
    /// Its fields before this one are good.
    fn in_bytes(bytes: &[u8], refusal: Refusal) -> Field {
        let at = refusal.a as usize;
        let header = bytes.get(at..at + 3);
        let length = header.map(|header| number_in(&header[1..]));
        let is_op = |length: &u64| OP_LENGTHS.contains(&(*length as usize));
        let value = length.filter(is_op).and_then(|length| {
            let begin = at + 3;
            bytes.get(begin..begin + length as usize)
        });
        let tag = header.map(|header| header[0]);
        Field {
            refusal,
            tag,
            length,
            op: value.filter(|_| tag == Some(0x04)).map(op_in),
            p: bytes.get(3..5).map_or(0, number_in),
            before: read_table(&bytes[..at]).map_or(Vec::new(), |table| table.ops),
        }
    }

    /// Of numbers handed over.
    fn in_numbers(numbers: &Numbers, refusal: Refusal) -> Field {
        let offset = |op: usize| behind_ops(numbers.modes, numbers.whole().take(op));
        let whole = numbers.whole_ops();
        let before = (0..=whole).take_while(|op| offset(*op) < refusal.a).count();
        let is_here = offset(before) == refusal.a;
        let op = numbers.whole().nth(before).filter(|_| is_here);
        let is_decider = is_here && op.is_none() && numbers.is_whole() && numbers.mark != 0;
        Field {
            refusal,
            tag: if is_decider {
                Some(0x05)
            } else {
                op.as_ref().map(|_| 0x04)
            },
            length: op.as_ref().map(|op| op.field_bytes() - 3),
            op,
            p: numbers.p,
            before: numbers.whole().take(before).collect(),
        }
    }

    fn is_refused(&self, number: u32) -> bool {
        self.refusal.number == number
    }

    /// RANGE blames the number at this place of an operation's field of so many bytes.
    fn blames(&self, length: u64, place: u64) -> bool {
        let is_op = self.tag == Some(0x04) && self.length == Some(length);
        is_op && self.is_refused(RANGE) && self.refusal.b == self.refusal.a + place
    }

    /// RANGE blames the hold, which is so beside the room that is left for it.
    fn blames_hold(&self, test: fn(u64, u64) -> bool) -> bool {
        let op = self.op.as_ref().filter(|_| self.blames(20, 7));
        op.map_or(false, |op| {
            let room = self.p - op.end();
            op.hold.map_or(false, |hold| test(hold, room))
        })
    }

    /// An operation before it has a hold, or has none.
    fn is_behind(&self, held: bool) -> bool {
        self.before.iter().any(|op| op.hold.is_some() == held)
    }
}

type OfField = (&'static str, fn(&Field) -> bool);

/// Met in both ways.
const OF_FIELDS: [OfField; 12] = [
    ("RANGE hold 0", |field| {
        field.blames_hold(|hold, _| hold == 0)
    }),
    ("RANGE hold past p", |field| {
        field.blames_hold(|hold, room| hold > room)
    }),
    ("RANGE hold past p by a tick", |field| {
        field.blames_hold(|hold, room| hold == room + 1)
    }),
    ("RANGE hold 0, no room for any", |field| {
        field.blames_hold(|hold, room| hold == 0 && room == 0)
    }),
    ("RANGE duration", |field| field.blames(20, 5)),
    ("RANGE duration before hold 0", |field| {
        let hold = field.op.as_ref().and_then(|op| op.hold);
        field.blames(20, 5) && hold == Some(0)
    }),
    ("RANGE boards", |field| field.blames(20, 9)),
    ("RANGE reads", |field| field.blames(20, 11)),
    ("RANGE writes", |field| field.blames(20, 15)),
    ("RANGE modes", |field| field.blames(20, 19)),
    ("RANGE in 18 bytes behind 20", |field| {
        let is_op = field.length == Some(18) && field.tag == Some(0x04);
        is_op && field.is_refused(RANGE) && field.is_behind(true)
    }),
    ("05 RANGE behind 20 bytes", |field| {
        field.tag == Some(0x05) && field.is_refused(RANGE) && field.is_behind(true)
    }),
];

/// An operation's field of this length is refused so.
fn of_length(field: &Field, number: u32, length: u64) -> bool {
    field.tag == Some(0x04) && field.is_refused(number) && field.length == Some(length)
}

/// Met in bytes.
const IN_BYTES: [OfField; 13] = [
    ("SIZE 17", |field| of_length(field, SIZE, 17)),
    ("SIZE 19", |field| of_length(field, SIZE, 19)),
    ("SIZE 21", |field| of_length(field, SIZE, 21)),
    ("SIZE 22", |field| of_length(field, SIZE, 22)),
    ("SIZE 276, with the low byte of 20", |field| {
        of_length(field, SIZE, 256 + 20)
    }),
    ("SIZE behind 20 bytes", |field| {
        field.is_refused(SIZE) && field.is_behind(true)
    }),
    ("SHORT in 20 bytes", |field| of_length(field, SHORT, 20)),
    ("SHORT in 18 bytes behind 20", |field| {
        of_length(field, SHORT, 18) && field.is_behind(true)
    }),
    ("MANY behind 20 bytes", |field| {
        field.is_refused(MANY) && field.is_behind(true)
    }),
    ("MANY behind 32 of 20 bytes", |field| {
        field.is_refused(MANY) && !field.is_behind(false)
    }),
    ("MANY, a 33rd of 20 bytes", |field| {
        of_length(field, MANY, 20)
    }),
    ("ORDER behind 20 bytes", |field| {
        field.is_refused(ORDER) && field.is_behind(true)
    }),
    ("05 ORDER or SIZE behind 20 bytes", |field| {
        let is_wrong = field.is_refused(ORDER) || field.is_refused(SIZE);
        field.tag == Some(0x05) && is_wrong && field.is_behind(true)
    }),
];

// ---- numbers ------------------------------------------------------------

/// Numbers handed over, their refusal, and how many operations would be before it.
struct Handed<'a> {
    numbers: &'a Numbers,
    refusal: Option<Refusal>,
    before: usize,
}

impl Handed<'_> {
    /// It is accepted, and the mark and the hold of an operation are so.
    fn accepted_with(&self, test: fn(u64, u64) -> bool) -> bool {
        let mut holds = self.numbers.holds.chunks_exact(HOLDS_PER_OP);
        self.refusal.is_none() && holds.any(|two| test(two[0], two[1]))
    }

    /// It is refused so, and so many of the six numbers, and of marks and holds, are left there.
    fn refused_with(&self, number: u32, test: fn(usize, usize) -> bool) -> bool {
        let ops = self
            .numbers
            .ops
            .len()
            .saturating_sub(NUMBERS_PER_OP * self.before);
        let holds = self
            .numbers
            .holds
            .len()
            .saturating_sub(HOLDS_PER_OP * self.before);
        self.refusal.map(|it| it.number) == Some(number) && test(ops, holds)
    }

    /// RANGE blames the hold of the operation that comes next.
    fn blamed_hold(&self) -> Option<u64> {
        let refusal = self.refusal.filter(|it| it.number == RANGE)?;
        let op = self.numbers.whole().nth(self.before)?;
        op.hold.filter(|_| refusal.b == refusal.a + 7)
    }
}

type OfNumbers = (&'static str, fn(&Handed<'_>) -> bool);

const OF_NUMBERS: [OfNumbers; 14] = [
    ("not marked, ignored, accepted", |handed| {
        handed.accepted_with(|mark, hold| mark == 0 && hold != 0)
    }),
    ("not marked, too large, accepted", |handed| {
        handed.accepted_with(|mark, hold| mark == 0 && hold > 65535)
    }),
    ("marked by other than 1, accepted", |handed| {
        handed.accepted_with(|mark, _| mark > 1)
    }),
    ("marked by 256 or more, accepted", |handed| {
        handed.accepted_with(|mark, _| mark > 255 && mark % 256 == 0)
    }),
    ("RANGE hold too large for its field", |handed| {
        handed.blamed_hold().map_or(false, |hold| hold > 65535)
    }),
    ("the same, its low bits are fine", |handed| {
        let room = |op: Op| handed.numbers.p - op.end();
        let room = handed.numbers.whole().nth(handed.before).map(room);
        let fine = |low: u64| low > 0 && Some(low) <= room;
        let hold = handed.blamed_hold().filter(|hold| *hold > 65535);
        hold.map_or(false, |hold| fine(hold % 65536))
    }),
    ("SHORT, only its six numbers", |handed| {
        handed.refused_with(SHORT, |ops, holds| ops >= NUMBERS_PER_OP && holds == 0)
    }),
    ("SHORT, its hold missing", |handed| {
        handed.refused_with(SHORT, |ops, holds| ops >= NUMBERS_PER_OP && holds == 1)
    }),
    ("SHORT, only a mark or more", |handed| {
        handed.refused_with(SHORT, |ops, holds| ops == 0 && holds > 0)
    }),
    ("SHORT, a mark, a hold and too few", |handed| {
        handed.refused_with(SHORT, |ops, holds| {
            0 < ops && ops < NUMBERS_PER_OP && holds >= HOLDS_PER_OP
        })
    }),
    ("SHORT at once, only a mark or more", |handed| {
        let at_once = handed.refused_with(SHORT, |ops, holds| ops == 0 && holds > 0);
        at_once && handed.before == 0
    }),
    ("SHORT behind 20 bytes", |handed| {
        let mut before = handed.numbers.whole().take(handed.before);
        handed.refused_with(SHORT, |_, _| true) && before.any(|op| op.hold.is_some())
    }),
    ("MANY, only a mark or more", |handed| {
        handed.refused_with(MANY, |ops, holds| ops == 0 && holds > 0)
    }),
    ("MANY, no mark and no hold", |handed| {
        handed.refused_with(MANY, |ops, holds| ops > 0 && holds == 0)
    }),
];

// ---- how often ----------------------------------------------------------

/// Of the inputs of both functions that judge: whole tables and fields, as bytes and as numbers;
/// fields in bytes, numbers.
#[derive(Default)]
pub struct Holds {
    tables: [[u64; 2]; OF_TABLES.len()],
    fields: [[u64; 2]; OF_FIELDS.len()],
    bytes: [u64; IN_BYTES.len()],
    numbers: [u64; OF_NUMBERS.len()],
}

/// Places of both ways to hand a table over.
const BYTES: usize = 0;
const NUMBERS: usize = 1;

impl Holds {
    /// A table whose fields are good, handed over in one of the two ways; its refusal.
    fn note_table(&mut self, table: &Table, way: usize) -> Option<Refusal> {
        let refusal = judge_table(table).err();
        if table.ops.iter().any(|op| op.hold.is_some()) {
            let whole = Whole { table, refusal };
            for (counts, (_, is_met)) in self.tables.iter_mut().zip(OF_TABLES) {
                counts[way] += u64::from(is_met(&whole));
            }
        }
        refusal
    }

    fn note_field(&mut self, field: &Field, way: usize) {
        for (counts, (_, is_met)) in self.fields.iter_mut().zip(OF_FIELDS) {
            counts[way] += u64::from(is_met(field));
        }
    }

    pub fn note_bytes(&mut self, bytes: &[u8]) {
        let read = read_table(bytes);
        if let Ok(table) = &read {
            self.note_table(table, BYTES);
        }
        if let Err(refusal) = read {
            let field = Field::in_bytes(bytes, refusal);
            self.note_field(&field, BYTES);
            for (count, (_, is_met)) in self.bytes.iter_mut().zip(IN_BYTES) {
                *count += u64::from(is_met(&field));
            }
        }
    }

    pub fn note_numbers(&mut self, numbers: &Numbers) {
        let (refusal, before) = match read_numbers(numbers) {
            Ok(table) => (self.note_table(&table, NUMBERS), table.ops.len()),
            Err(refusal) => {
                let field = Field::in_numbers(numbers, refusal);
                self.note_field(&field, NUMBERS);
                (Some(refusal), field.before.len())
            }
        };
        let handed = Handed {
            numbers,
            refusal,
            before,
        };
        for (count, (_, is_met)) in self.numbers.iter_mut().zip(OF_NUMBERS) {
            *count += u64::from(is_met(&handed));
        }
    }

    /// Every kind with its counts: as bytes and as numbers, where it can be met so.
    fn all(&self) -> Vec<Kind> {
        let tables = OF_TABLES.iter().zip(&self.tables);
        let tables = tables.map(|((name, _), counts)| (*name, counts.map(Some)));
        let fields = OF_FIELDS.iter().zip(&self.fields);
        let fields = fields.map(|((name, _), counts)| (*name, counts.map(Some)));
        let bytes = IN_BYTES.iter().zip(&self.bytes);
        let bytes = bytes.map(|((name, _), count)| (*name, [Some(*count), None]));
        let numbers = OF_NUMBERS.iter().zip(&self.numbers);
        let numbers = numbers.map(|((name, _), count)| (*name, [None, Some(*count)]));
        tables.chain(fields).chain(bytes).chain(numbers).collect()
    }

    /// A line for each kind.
    pub fn print(&self) {
        counts::print(COMMON, &self.all());
    }

    /// The kinds that were not met.
    pub fn missed(&self) -> Vec<String> {
        counts::missed(COMMON, &self.all())
    }
}
