//! Reading, judging and writing of tables (document 01, "The table", "Bytes",
//! "Numbers of refusal"; document 02, No. 4 for the decider, No. 7 for the places
//! where a number is wrong and No. 9 for the hold).

/// "input ends inside a field's header or value"
pub const SHORT: u32 = 1;
/// "a tag that is not due, or input ends with a needed field missing"
pub const ORDER: u32 = 2;
/// "length is not the tag's length"
pub const SIZE: u32 = 3;
/// "a number or set outside its range above"
pub const RANGE: u32 = 4;
/// "a 33rd operation"
pub const MANY: u32 = 5;
/// "two operations clash"
pub const CLASH: u32 = 6;
/// "two operations race"
pub const RACE: u32 = 7;
/// "output buffer too short"
pub const ROOM: u32 = 8;
/// "an operation number, distance or period asked for is outside its range"
pub const ASK: u32 = 9;
/// An operation that starts before the mode is decided, or a decider that does not run
/// in every mode (document 02, No. 4).
pub const EARLY: u32 = 10;

/// "operations | 1 to 32": the most there may be.
pub const MOST_OPS: usize = 32;

/// "six for each operation, in layout order"
pub const NUMBERS_PER_OP: usize = 6;

/// For each operation a mark and the hold, beside its six numbers.
pub const HOLDS_PER_OP: usize = 2;

/// Those that stand in the layout: the six and the hold.
pub const PLACES_PER_OP: usize = NUMBERS_PER_OP + 1;

/// "SIZE now admits 18 and 20"
pub const OP_LENGTHS: [usize; 2] = [18, 20];

/// "A refusal returns its number, a and b".
#[derive(Clone, Copy, Debug, PartialEq, Eq)]
pub struct Refusal {
    pub number: u32,
    pub a: u64,
    pub b: u64,
}

/// "An operation has a start t, a duration d ...; a set of boards ...; cells it
/// reads; cells it writes ...; a set of modes". Member x of a set is bit x. Its field
/// has 20 bytes where it has a hold, and 18 where it has none, which "means hold 0".
#[derive(Clone, Debug, PartialEq, Eq)]
pub struct Op {
    pub start: u64,
    pub dur: u64,
    pub hold: Option<u64>,
    pub boards: u64,
    pub reads: u64,
    pub writes: u64,
    pub modes: u64,
}

/// The table: its length p, its counts, the first modes, the followers of each
/// mode, the operations, and "the number of the deciding operation" where it names one.
#[derive(Clone, Debug, PartialEq, Eq)]
pub struct Table {
    pub len: u64,
    pub boards: u64,
    pub cells: u64,
    pub modes: u64,
    pub first: u64,
    pub follow: Vec<u64>,
    pub ops: Vec<Op>,
    pub decider: Option<u64>,
}

/// "A table handed over as numbers (six for each operation, in layout order)". An
/// optional number "is handed over beside these with a mark that says whether it is
/// there": the mark is unset where it is 0, and the number counts for nothing then. So
/// is the decider, and so is the hold of each operation, two numbers for each in
/// `holds`: the mark and the hold.
#[derive(Clone, Debug, PartialEq, Eq)]
pub struct Numbers {
    pub p: u64,
    pub boards: u64,
    pub cells: u64,
    pub modes: u64,
    pub first: u64,
    pub follow: Vec<u64>,
    pub ops: Vec<u64>,
    pub holds: Vec<u64>,
    pub mark: u64,
    pub decider: u64,
}

impl Numbers {
    /// How many numbers come before those of the operations.
    pub fn before_ops(&self) -> usize {
        5 + self.follow.len()
    }

    /// How many operations have all their numbers.
    pub fn whole_ops(&self) -> usize {
        let holds = self.holds.len() / HOLDS_PER_OP;
        holds.min(self.ops.len() / NUMBERS_PER_OP)
    }

    /// No operation has numbers missing.
    pub fn is_whole(&self) -> bool {
        let whole = self.whole_ops();
        let lengths = (self.ops.len(), self.holds.len());
        lengths == (NUMBERS_PER_OP * whole, HOLDS_PER_OP * whole)
    }

    /// The place of the decider, which comes after all others.
    pub fn decider_place(&self) -> usize {
        self.before_ops() + PLACES_PER_OP * self.whole_ops()
    }

    /// A number of an operation: its start, duration, hold, boards, reads, writes, modes.
    fn number_of_op(&mut self, op: usize, place: usize) -> &mut u64 {
        let first = NUMBERS_PER_OP * op;
        match place {
            0 | 1 => &mut self.ops[first + place],
            2 => &mut self.holds[HOLDS_PER_OP * op + 1],
            _ => &mut self.ops[first + place - 1],
        }
    }

    /// The number at this place in layout order, over all fields. A mark is in none; a
    /// hold that is not marked has a place all the same.
    pub fn number(&mut self, place: usize) -> &mut u64 {
        let (before_ops, decider) = (self.before_ops(), self.decider_place());
        match place {
            0 => &mut self.p,
            1 => &mut self.boards,
            2 => &mut self.cells,
            3 => &mut self.modes,
            4 => &mut self.first,
            _ if place < before_ops => &mut self.follow[place - 5],
            _ if place < decider => {
                let place = place - before_ops;
                self.number_of_op(place / PLACES_PER_OP, place % PLACES_PER_OP)
            }
            _ => &mut self.decider,
        }
    }

    /// The operations that have all their numbers.
    pub fn whole(&self) -> impl Iterator<Item = Op> + '_ {
        let holds = self.holds.chunks_exact(HOLDS_PER_OP);
        let ops = self.ops.chunks_exact(NUMBERS_PER_OP).zip(holds);
        ops.map(|(six, two)| op_of(six, two))
    }

    /// The decider, where the mark says that it is there.
    pub fn marked(&self) -> Option<u64> {
        (self.mark != 0).then(|| self.decider)
    }
}

impl Op {
    /// "from t up to but not including t + d": this is t + d.
    pub fn end(&self) -> u64 {
        self.start + self.dur
    }

    /// "Boards are held until start + duration + hold".
    pub fn held_to(&self) -> u64 {
        self.end() + self.hold.unwrap_or(0)
    }

    /// How many bytes its field has, with the header.
    pub fn field_bytes(&self) -> u64 {
        let length = OP_LENGTHS[usize::from(self.hold.is_some())];
        3 + length as u64
    }

    /// "an operation runs in it when that mode is in its set"
    pub fn runs_in(&self, mode: u64) -> bool {
        has(self.modes, mode)
    }
}

/// A refusal whose second figure is 0.
pub fn refusal(number: u32, a: u64) -> Refusal {
    Refusal { number, a, b: 0 }
}

/// Err with the number and figure where a demand is not met.
pub fn demand(met: bool, number: u32, a: u64) -> Result<(), Refusal> {
    if met {
        Ok(())
    } else {
        Err(refusal(number, a))
    }
}

/// "bit 0 of a set is the lowest bit"
pub fn has(set: u64, member: u64) -> bool {
    (set >> member) & 1 == 1
}

/// "All numbers are most significant byte first".
pub fn number_in(bytes: &[u8]) -> u64 {
    bytes
        .iter()
        .fold(0, |so_far, byte| so_far * 256 + u64::from(*byte))
}

// ---- ranges -------------------------------------------------------------

/// A number as it stands in a field: how many bytes it has there, the number,
/// and whether it is in its range.
pub type Ranged = (u32, u64, bool);

/// The number can be written in so many bytes.
fn fits(number: u64, bytes: u32) -> bool {
    number < 1 << (8 * bytes)
}

/// The numbers of the field at this offset, in layout order. "In RANGE, let b be
/// the offset of the first byte of the first wrong number" (document 02, No. 7).
/// Whatever its range, "a number too large for its field" is wrong.
pub fn judge_ranges(at: u64, numbers: &[Ranged]) -> Result<(), Refusal> {
    // behind "a one-byte tag, a two-byte length"
    let mut b = at + 3;
    for (bytes, number, in_range) in numbers {
        if !in_range || !fits(*number, *bytes) {
            return Err(Refusal {
                number: RANGE,
                a: at,
                b,
            });
        }
        b += u64::from(*bytes);
    }
    Ok(())
}

/// "A set names nothing beyond the table's counts."
fn names_within(set: u64, count: u64) -> bool {
    (0..64).all(|member| !has(set, member) || member < count)
}

/// A set that is "not empty", within the count.
fn filled_within(set: u64, count: u64) -> bool {
    set != 0 && names_within(set, count)
}

/// "table length p, in ticks | 1 to 1000"
fn judge_length(at: u64, p: u64) -> Result<(), Refusal> {
    judge_ranges(at, &[(2, p, 1 <= p && p <= 1000)])
}

/// "boards 1 to 16", "cells 0 to 32", "modes 1 to 32"
fn judge_counts(at: u64, boards: u64, cells: u64, modes: u64) -> Result<(), Refusal> {
    let numbers = [
        (1, boards, 1 <= boards && boards <= 16),
        (1, cells, cells <= 32),
        (1, modes, 1 <= modes && modes <= 32),
    ];
    judge_ranges(at, &numbers)
}

/// "a set of first modes, not empty, and for each mode the set of modes that
/// may follow, not empty"
fn judge_turns(at: u64, modes: u64, first: u64, follow: &[u64]) -> Result<(), Refusal> {
    let sets = std::iter::once(&first).chain(follow);
    let numbers: Vec<Ranged> = sets
        .map(|set| (4, *set, filled_within(*set, modes)))
        .collect();
    judge_ranges(at, &numbers)
}

/// "a duration d of at least 1, with t + d at most p". The sum of numbers handed
/// over may be beyond 64 bits; it is above p then as well.
fn in_time(p: u64, op: &Op) -> bool {
    1 <= op.dur && op.start.saturating_add(op.dur) <= p
}

/// "a 20-byte field with hold 0 is RANGE and blames the hold; so does a hold that alone
/// runs past p". Whether the duration is good is judged before it.
fn held_in_time(p: u64, op: &Op, hold: u64) -> bool {
    let held_to = op.start.saturating_add(op.dur).saturating_add(hold);
    1 <= hold && held_to <= p
}

/// "An operation that ends after p blames its duration": a start has no range of
/// its own. "A set of boards, not empty; cells it reads; cells it writes (either
/// set may be empty, and they may meet); a set of modes, not empty". A hold that is not
/// there has no bytes.
fn judge_op(at: u64, table: &Table, op: &Op) -> Result<(), Refusal> {
    let hold = op.hold.map_or((0, 0, true), |hold| {
        (2, hold, held_in_time(table.len, op, hold))
    });
    let numbers = [
        (2, op.start, true),
        (2, op.dur, in_time(table.len, op)),
        hold,
        (2, op.boards, filled_within(op.boards, table.boards)),
        (4, op.reads, names_within(op.reads, table.cells)),
        (4, op.writes, names_within(op.writes, table.cells)),
        (4, op.modes, filled_within(op.modes, table.modes)),
    ];
    judge_ranges(at, &numbers)
}

/// "a number that is no operation is RANGE"
fn judge_decider(at: u64, ops: usize, decider: u64) -> Result<(), Refusal> {
    judge_ranges(at, &[(1, decider, decider < ops as u64)])
}

// ---- fields as bytes ----------------------------------------------------

/// The bytes and a place in them.
pub struct Fields<'a> {
    bytes: &'a [u8],
    place: usize,
}

impl<'a> Fields<'a> {
    pub fn new(bytes: &'a [u8]) -> Fields<'a> {
        Fields { bytes, place: 0 }
    }

    /// The offset of the field that comes next.
    pub fn offset(&self) -> u64 {
        self.place as u64
    }

    pub fn at_end(&self) -> bool {
        self.place == self.bytes.len()
    }

    /// A header with this tag comes next. One that is not whole has no tag.
    fn comes_next(&self, tag: u8) -> bool {
        let rest = &self.bytes[self.place..];
        rest.len() >= 3 && rest[0] == tag
    }

    /// Nothing is due any more: "a field after 05 is ORDER", and its header has to be
    /// complete before its tag is looked at.
    fn end(&self) -> Result<(), Refusal> {
        let (at, left) = (self.offset(), self.bytes.len() - self.place);
        demand(left == 0 || left >= 3, SHORT, at)?;
        demand(left == 0, ORDER, at)
    }

    /// "Within one: header complete, tag due, not a 33rd, length, value
    /// complete"; the ranges are judged by the caller. `lengths` are those that the tag
    /// has, and `before` tells how many operations were read before this field.
    pub fn field(
        &mut self,
        tag: u8,
        lengths: &[usize],
        before: usize,
    ) -> Result<&'a [u8], Refusal> {
        let at = self.offset();
        let rest = &self.bytes[self.place..];
        demand(!rest.is_empty(), ORDER, at)?;
        demand(rest.len() >= 3, SHORT, at)?;
        demand(rest[0] == tag, ORDER, at)?;
        demand(before < MOST_OPS, MANY, at)?;
        let length = number_in(&rest[1..3]) as usize;
        demand(lengths.contains(&length), SIZE, at)?;
        demand(rest.len() >= 3 + length, SHORT, at)?;
        self.place += 3 + length;
        Ok(&rest[3..3 + length])
    }
}

/// "01, length 2: p."
fn read_length(fields: &mut Fields) -> Result<u64, Refusal> {
    let at = fields.offset();
    let p = number_in(fields.field(0x01, &[2], 0)?);
    judge_length(at, p)?;
    Ok(p)
}

/// "02, length 3: boards, cells, modes, a byte each."
fn read_counts(fields: &mut Fields) -> Result<(u64, u64, u64), Refusal> {
    let at = fields.offset();
    let value = fields.field(0x02, &[3], 0)?;
    let (boards, cells, modes) = (
        u64::from(value[0]),
        u64::from(value[1]),
        u64::from(value[2]),
    );
    judge_counts(at, boards, cells, modes)?;
    Ok((boards, cells, modes))
}

/// "03, length 4 + 4·modes: first modes, then the followers of mode 0, 1, .. as
/// 32-bit sets."
fn read_turns(fields: &mut Fields, modes: u64) -> Result<(u64, Vec<u64>), Refusal> {
    let at = fields.offset();
    let value = fields.field(0x03, &[4 + 4 * modes as usize], 0)?;
    let first = number_in(&value[0..4]);
    let follow: Vec<u64> = value[4..].chunks(4).map(number_in).collect();
    judge_turns(at, modes, first, &follow)?;
    Ok((first, follow))
}

/// "start, duration, boards (16 bits each), reads, writes, modes (32 bits each)"; in 20
/// bytes "with a 16-bit hold after the duration".
pub fn op_in(value: &[u8]) -> Op {
    let (dates, sets) = value.split_at(value.len() - 14);
    Op {
        start: number_in(&dates[0..2]),
        dur: number_in(&dates[2..4]),
        hold: dates.get(4..6).map(number_in),
        boards: number_in(&sets[0..2]),
        reads: number_in(&sets[2..6]),
        writes: number_in(&sets[6..10]),
        modes: number_in(&sets[10..14]),
    }
}

/// "04, length 18, once for each operation", or 20; there is at least one. After any of
/// them the input may end, or a field 05 come.
fn read_ops(fields: &mut Fields, table: &mut Table) -> Result<(), Refusal> {
    loop {
        let at = fields.offset();
        let op = op_in(fields.field(0x04, &OP_LENGTHS, table.ops.len())?);
        judge_op(at, table, &op)?;
        table.ops.push(op);
        if fields.at_end() || fields.comes_next(0x05) {
            return Ok(());
        }
    }
}

/// "An optional last field 05, length 1, gives the number of the deciding operation."
fn read_decider(fields: &mut Fields, table: &mut Table) -> Result<(), Refusal> {
    if fields.at_end() {
        return Ok(());
    }
    let at = fields.offset();
    let decider = number_in(fields.field(0x05, &[1], 0)?);
    judge_decider(at, table.ops.len(), decider)?;
    table.decider = Some(decider);
    fields.end()
}

/// "Table fields, in this order and no other", "judged left to right".
pub fn read_table(bytes: &[u8]) -> Result<Table, Refusal> {
    let mut fields = Fields::new(bytes);
    let len = read_length(&mut fields)?;
    let (boards, cells, modes) = read_counts(&mut fields)?;
    let (first, follow) = read_turns(&mut fields, modes)?;
    let mut table = Table {
        len,
        boards,
        cells,
        modes,
        first,
        follow,
        ops: Vec::new(),
        decider: None,
    };
    read_ops(&mut fields, &mut table)?;
    read_decider(&mut fields, &mut table)?;
    Ok(table)
}

// ---- clash and race -----------------------------------------------------

/// "An operation ... uses its cells from t up to but not including t + d. Two operations
/// that touch ... do not overlap."
fn overlap(one: &Op, other: &Op) -> bool {
    one.start < other.end() && other.start < one.end()
}

/// The same for its boards, which "are held until start + duration + hold".
fn held_together(one: &Op, other: &Op) -> bool {
    one.start < other.held_to() && other.start < one.held_to()
}

/// "when they share a board and a mode and overlap"
pub fn clash(one: &Op, other: &Op) -> bool {
    one.boards & other.boards != 0 && one.modes & other.modes != 0 && held_together(one, other)
}

/// "one writes a cell that the other reads or writes"
fn writes_into(one: &Op, other: &Op) -> bool {
    one.writes & (other.reads | other.writes) != 0
}

/// "when they share a mode and overlap and one writes a cell that the other
/// reads or writes"; "cells ... still go by the duration".
pub fn race(one: &Op, other: &Op) -> bool {
    let cells = writes_into(one, other) || writes_into(other, one);
    one.modes & other.modes != 0 && overlap(one, other) && cells
}

/// "over all pairs, by lower number and then higher"
fn no_pair(ops: &[Op], number: u32, bad: fn(&Op, &Op) -> bool) -> Result<(), Refusal> {
    for low in 0..ops.len() {
        for high in low + 1..ops.len() {
            if bad(&ops[low], &ops[high]) {
                return Err(Refusal {
                    number,
                    a: low as u64,
                    b: high as u64,
                });
            }
        }
    }
    Ok(())
}

// ---- the decider --------------------------------------------------------

impl Table {
    /// Every mode that the table has, whether a run reaches it or not.
    pub fn runs_in_every_mode(&self, op: &Op) -> bool {
        (0..self.modes).all(|mode| op.runs_in(mode))
    }

    /// "An operation that doesn't run in every mode must start at or after its end",
    /// which is that of the decider; "EARLY ... still go by the duration".
    pub fn is_too_early(&self, decider: &Op, op: &Op) -> bool {
        !self.runs_in_every_mode(op) && op.start < decider.end()
    }
}

/// "with a the decider and b the lowest operation that starts too early, or b the
/// decider itself where it doesn't run in every mode, which is tested first"
pub fn judge_early(table: &Table) -> Result<(), Refusal> {
    let a = match table.decider {
        Some(decider) => decider,
        None => return Ok(()),
    };
    let decider = &table.ops[a as usize];
    let mut early = (0..).zip(&table.ops);
    let b = if table.runs_in_every_mode(decider) {
        let found = early.find(|(_, op)| table.is_too_early(decider, op));
        found.map(|(b, _)| b)
    } else {
        Some(a)
    };
    let number = EARLY;
    b.map_or(Ok(()), |b| Err(Refusal { number, a, b }))
}

// ---- a whole table ------------------------------------------------------

/// "Then CLASH over all pairs ...; then RACE likewise"; "10 EARLY comes after RACE".
pub fn judge_table(table: &Table) -> Result<(), Refusal> {
    no_pair(&table.ops, CLASH, clash)?;
    no_pair(&table.ops, RACE, race)?;
    judge_early(table)
}

/// A table handed over as bytes: its fields, then CLASH, RACE and EARLY.
pub fn judge(bytes: &[u8]) -> Result<Table, Refusal> {
    let table = read_table(bytes)?;
    judge_table(&table)?;
    Ok(table)
}

// ---- tables handed over as numbers --------------------------------------

/// The offset of field 03.
const TURNS_AT: u64 = 5 + 6;

/// The offset that comes behind these operations in the layout.
pub fn behind_ops(modes: u64, ops: impl Iterator<Item = Op>) -> u64 {
    let ops: u64 = ops.map(|op| op.field_bytes()).sum();
    TURNS_AT + 3 + 4 + 4 * modes + ops
}

/// Fields 01 to 03. "A wrong count of follower words is SIZE, a number too large
/// for its field RANGE"; within a field the length comes before the ranges.
fn judge_head(numbers: &Numbers) -> Result<(), Refusal> {
    judge_length(0, numbers.p)?;
    judge_counts(5, numbers.boards, numbers.cells, numbers.modes)?;
    demand(numbers.follow.len() as u64 == numbers.modes, SIZE, TURNS_AT)?;
    judge_turns(TURNS_AT, numbers.modes, numbers.first, &numbers.follow)
}

/// The six numbers of an operation in layout order, the mark of its hold and the hold.
fn op_of(six: &[u64], two: &[u64]) -> Op {
    Op {
        start: six[0],
        dur: six[1],
        hold: (two[0] != 0).then(|| two[1]),
        boards: six[2],
        reads: six[3],
        writes: six[4],
        modes: six[5],
    }
}

/// Field 04 for each operation, of 18 bytes or of 20 as its mark says. "An operation with
/// numbers missing SHORT", of its six or of its mark and hold; not a 33rd comes before
/// the value, the value before its ranges. The offset behind the operations.
fn judge_ops(table: &mut Table, numbers: &Numbers) -> Result<u64, Refusal> {
    let (mut ops, mut holds) = (&numbers.ops[..], &numbers.holds[..]);
    let mut at = behind_ops(table.modes, std::iter::empty());
    demand(ops.len() + holds.len() > 0, ORDER, at)?;
    while ops.len() + holds.len() > 0 {
        demand(table.ops.len() < MOST_OPS, MANY, at)?;
        demand(ops.len() >= NUMBERS_PER_OP, SHORT, at)?;
        demand(holds.len() >= HOLDS_PER_OP, SHORT, at)?;
        let (six, more_ops) = ops.split_at(NUMBERS_PER_OP);
        let (two, more_holds) = holds.split_at(HOLDS_PER_OP);
        let op = op_of(six, two);
        judge_op(at, table, &op)?;
        at += op.field_bytes();
        table.ops.push(op);
        (ops, holds) = (more_ops, more_holds);
    }
    Ok(at)
}

/// Field 05 behind the operations, "written exactly when" the mark says that it is
/// there.
fn judge_marked(at: u64, table: &mut Table, numbers: &Numbers) -> Result<(), Refusal> {
    if let Some(decider) = numbers.marked() {
        judge_decider(at, table.ops.len(), decider)?;
    }
    table.decider = numbers.marked();
    Ok(())
}

/// The table that the numbers are, with these operations and no decider.
fn table_with(numbers: &Numbers, ops: Vec<Op>) -> Table {
    Table {
        len: numbers.p,
        boards: numbers.boards,
        cells: numbers.cells,
        modes: numbers.modes,
        first: numbers.first,
        follow: numbers.follow.clone(),
        ops,
        decider: None,
    }
}

/// The fields that the numbers would be written as, "judged left to right".
pub fn read_numbers(numbers: &Numbers) -> Result<Table, Refusal> {
    judge_head(numbers)?;
    let mut table = table_with(numbers, Vec::new());
    let at = judge_ops(&mut table, numbers)?;
    judge_marked(at, &mut table, numbers)?;
    Ok(table)
}

/// "A table handed over as numbers ... is judged as if first written in this
/// layout and then read."
pub fn judge_numbers(numbers: &Numbers) -> Result<Table, Refusal> {
    let table = read_numbers(numbers)?;
    judge_table(&table)?;
    Ok(table)
}

// ---- writing ------------------------------------------------------------

/// The number in so many bytes, most significant byte first.
pub fn push_number(out: &mut Vec<u8>, number: u64, bytes: u32) {
    for place in (0..bytes).rev() {
        out.push((number >> (8 * place)) as u8);
    }
}

/// "Each field is a one-byte tag, a two-byte length, and the value."
pub fn push_field(out: &mut Vec<u8>, tag: u8, value: &[u8]) {
    out.push(tag);
    push_number(out, value.len() as u64, 2);
    out.extend_from_slice(value);
}

/// The value of field 03.
fn turns_value(table: &Table) -> Vec<u8> {
    let mut value = Vec::new();
    push_number(&mut value, table.first, 4);
    for set in &table.follow {
        push_number(&mut value, *set, 4);
    }
    value
}

/// The value of a field 04: the hold is "written exactly when it is" there.
fn op_value(op: &Op) -> Vec<u8> {
    let mut value = Vec::new();
    push_number(&mut value, op.start, 2);
    push_number(&mut value, op.dur, 2);
    if let Some(hold) = op.hold {
        push_number(&mut value, hold, 2);
    }
    push_number(&mut value, op.boards, 2);
    push_number(&mut value, op.reads, 4);
    push_number(&mut value, op.writes, 4);
    push_number(&mut value, op.modes, 4);
    value
}

/// The table in the layout. Nothing is judged here: of a number too large for
/// its place the low bits are written (the generator of bad inputs uses that).
pub fn bytes_of(table: &Table) -> Vec<u8> {
    let mut out = Vec::new();
    let mut length = Vec::new();
    push_number(&mut length, table.len, 2);
    push_field(&mut out, 0x01, &length);
    push_field(
        &mut out,
        0x02,
        &[table.boards as u8, table.cells as u8, table.modes as u8],
    );
    push_field(&mut out, 0x03, &turns_value(table));
    for op in &table.ops {
        push_field(&mut out, 0x04, &op_value(op));
    }
    if let Some(decider) = table.decider {
        push_field(&mut out, 0x05, &[decider as u8]);
    }
    out
}

/// The table as numbers.
pub fn numbers_of(table: &Table) -> Numbers {
    let (mut ops, mut holds) = (Vec::new(), Vec::new());
    for op in &table.ops {
        ops.extend_from_slice(&[op.start, op.dur, op.boards, op.reads, op.writes, op.modes]);
        holds.extend_from_slice(&[u64::from(op.hold.is_some()), op.hold.unwrap_or(0)]);
    }
    Numbers {
        p: table.len,
        boards: table.boards,
        cells: table.cells,
        modes: table.modes,
        first: table.first,
        follow: table.follow.clone(),
        ops,
        holds,
        mark: u64::from(table.decider.is_some()),
        decider: table.decider.unwrap_or(0),
    }
}

/// The numbers in the layout, as `bytes_of` writes a table; an operation with
/// numbers missing is left out, and nothing is written behind it.
pub fn bytes_of_numbers(numbers: &Numbers) -> Vec<u8> {
    let mut table = table_with(numbers, numbers.whole().collect());
    table.decider = numbers.marked().filter(|_| numbers.is_whole());
    bytes_of(&table)
}

/// "Success writes the stated bytes from the front and leaves the rest of the
/// buffer"; "output buffer too short" gives the bytes needed.
pub fn put(bytes: &[u8], out: &mut [u8]) -> Result<usize, Refusal> {
    demand(out.len() >= bytes.len(), ROOM, bytes.len() as u64)?;
    out[..bytes.len()].copy_from_slice(bytes);
    Ok(bytes.len())
}

/// "A table can be written as well as read": judged, then ROOM with the length
/// of the table.
pub fn write_table(numbers: &Numbers, out: &mut [u8]) -> Result<usize, Refusal> {
    let table = judge_numbers(numbers)?;
    put(&bytes_of(&table), out)
}
