//! Byte examples, the story of the turn that nobody typed, and a few checks on drawn inputs.
//! What the tables of `examples/` fold to stands in their comments and is checked there.

use crate::against::Margin;
use crate::answers::{boards_fit, fold, gap, margin, plan, reply_bytes, start_bytes, text};
use crate::answers::{unfold, values_arrive, LONGEST_PLAIN, LONGEST_REPLY, LONGEST_STARTS};
use crate::answers::{LONGEST_TABLE, LONGEST_TEXT};
use crate::asking::lines_are_as_said;
use crate::blamed;
use crate::examples::K1;
use crate::findings::{said_of, NAMES};
use crate::gaps;
use crate::generate::{self, Seed};
use crate::hex::bytes_in;
use crate::holds::without_holds;
use crate::judge::{bytes_of, bytes_of_numbers, judge, judge_numbers, numbers_of, push_number};
use crate::judge::{put, read_table, write_table, Numbers, Op, Refusal, Table};
use crate::kinds::Shown;
use crate::laid;
use crate::library::Said;
use crate::picture::{escaped, svg, tick, Panel, Point};
use crate::pressed::{self, Ask};
use crate::renamed::{compare_pair, drawn_renaming, Found, Functions, Pair, Renaming};
use crate::runs::{enough_cycles, taken_from, Run};
use crate::stack;
use crate::times::{readable, timed, worked, Times, ROUNDS};
use crate::walks::{self, period, right};
use crate::words::{decimal, printed, LIST};

/// How many checks passed and failed.
struct Tally {
    passed: u64,
    failed: u64,
}

impl Tally {
    fn check(&mut self, name: &str, good: bool) {
        if good {
            self.passed += 1;
        } else {
            self.failed += 1;
            println!("failed: {}", name);
        }
    }

    /// The bytes are refused with these figures, by every way to ask.
    fn refused(&mut self, name: &str, bytes: &[u8], figures: (u32, u64, u64)) {
        let expected = Err(refusal_of(figures));
        self.check(name, judge(bytes).map(|_| ()) == expected);
        self.check(name, plan(bytes, &mut [0; 300]).map(|_| ()) == expected);
        self.check(name, margin(bytes, 99, 99, 0, 0).map(|_| ()) == expected);
        self.check(name, boards_fit(bytes, 0).map(|_| ()) == expected);
        self.check(name, values_arrive(bytes, 0).map(|_| ()) == expected);
        self.check(name, gap(bytes).map(|_| ()) == expected);
        let line = format!("refused {} {} {}\n", figures.0, figures.1, figures.2);
        self.check(name, text(bytes) == line);
    }

    /// The reply is refused with these figures.
    fn reply_refused(&mut self, name: &str, bytes: &[u8], figures: (u32, u64, u64)) {
        let answer = unfold(bytes, &mut [0; 80]).map(|_| ());
        self.check(name, answer == Err(refusal_of(figures)));
    }

    /// The numbers are refused with these figures, read or written.
    fn numbers_refused(&mut self, name: &str, numbers: &Numbers, figures: (u32, u64, u64)) {
        let expected = Err(refusal_of(figures));
        self.check(name, judge_numbers(numbers).map(|_| ()) == expected);
        let mut out = [0x5a; 900];
        self.check(name, write_table(numbers, &mut out).map(|_| ()) == expected);
        self.check(name, out.iter().all(|byte| *byte == 0x5a));
    }
}

fn refusal_of(figures: (u32, u64, u64)) -> Refusal {
    Refusal {
        number: figures.0,
        a: figures.1,
        b: figures.2,
    }
}

/// Bytes from hexadecimal text.
fn from_hex(digits: &str) -> Vec<u8> {
    bytes_in(digits).expect("hexadecimal text")
}

/// What is text of bytes, and what is not.
fn hexadecimal(tally: &mut Tally) {
    let good = bytes_in("01 fF# 02\n\t0304 # 5");
    tally.check("text", good == Some(vec![0x01, 0xff, 0x03, 0x04]));
    for bad in ["0", "012", "0x01", "01,02", "0 1", "01 g0"] {
        tally.check("no text", bytes_in(bad) == None);
    }
}

// ---- questions about the bench tables -----------------------------------

fn k1() -> Vec<u8> {
    from_hex(K1)
}

/// "The reply bytes are ..", "Margin of 0, 0 at n 1: 0 for q 3, −1 for q 2", "K1 into 11
/// bytes: refused 8 12 0; into 12 accepted"
fn bench_k1(tally: &mut Tally) {
    tally.check("K1 margin 3", margin(&k1(), 0, 0, 1, 3) == Ok(0));
    tally.check("K1 margin 2", margin(&k1(), 0, 0, 1, 2) == Ok(-1));
    let mut out = [0xee; 14];
    tally.check("K1 count", plan(&k1(), &mut out) == Ok(12));
    let expected = from_hex("11 00 02 00 03 12 00 04 00 01 00 00 ee ee");
    tally.check("K1 reply", out[..] == expected[..]);
    let mut starts = [0xee; 3];
    let count = unfold(&out[..12], &mut starts);
    tally.check("K1 unfold", count == Ok(2) && starts == [0, 1, 0xee]);
    let mut eleven = [7; 11];
    let refused = plan(&k1(), &mut eleven) == Err(refusal_of((8, 12, 0)));
    tally.check("K1 into 11", refused && eleven == [7; 11]);
    tally.check("K1 into 12", plan(&k1(), &mut [7; 12]) == Ok(12));
}

/// What a table's boards and its values say, for each period from 1 up to its length.
fn check_answers(tally: &mut Tally, name: &str, bytes: &[u8], boards: &[bool], values: &[bool]) {
    for (q, (fit, arrive)) in (1..).zip(boards.iter().zip(values)) {
        tally.check(name, boards_fit(bytes, q) == Ok(*fit));
        tally.check(name, values_arrive(bytes, q) == Ok(*arrive));
    }
    let beyond = boards.len() as u64 + 1;
    let expected = Err(refusal_of((9, 0, 0)));
    for q in [0, beyond, u64::MAX] {
        tally.check(name, boards_fit(bytes, q) == expected);
        tally.check(name, values_arrive(bytes, q) == expected);
    }
}

/// K1: "period 3", of one board and no cells. K3: "Period 4", which its values ask for, and
/// its boards for 2. K4: "Period 2, though 3 is not right", by its boards. K7: "Period 3", by
/// its values. K8: "Period 3", by its boards, since its reader takes what its own cycle wrote.
fn bench_answers(tally: &mut Tally) {
    let (yes, no) = (true, false);
    let k3 = from_hex(include_str!("../examples/k03.hex"));
    let k4 = from_hex(include_str!("../examples/k04.hex"));
    let k7 = from_hex(include_str!("../examples/k07.hex"));
    let k8 = from_hex(include_str!("../examples/k08.hex"));
    let from_2 = [no, yes, yes, yes, yes, yes];
    let from_3 = [no, no, yes, yes, yes, yes];
    let from_4 = [no, no, no, yes, yes, yes];
    check_answers(tally, "K1", &k1(), &from_3[..5], &[yes; 5]);
    check_answers(tally, "K3", &k3, &from_2, &from_4);
    check_answers(tally, "K4", &k4, &[no, yes, no, yes], &[yes; 4]);
    check_answers(tally, "K7", &k7, &[yes; 6], &from_3);
    check_answers(tally, "K8", &k8, &from_3, &[yes; 6]);
}

/// The margins that are farthest from 0.
fn margins(tally: &mut Tally) {
    let bytes = bytes_of(&generate::widest());
    tally.check("least", margin(&bytes, 0, 1, 1, 1) == Ok(-999));
    tally.check("most", margin(&bytes, 1, 2, 1000, 1000) == Ok(1_000_998));
}

// ---- the largest table --------------------------------------------------

/// A line of the header.
fn check_named(tally: &mut Tally, name: &str, number: usize) {
    let header = include_str!("../include/trevozhil.h");
    let line = format!("#define TREVOZHIL_{} {}", name, number);
    tally.check(&line, header.lines().any(|named| named == line));
}

/// The numbers of refusal and the sizes that are named in the header.
fn named(tally: &mut Tally) {
    for (number, name) in NAMES.iter().enumerate().skip(1) {
        check_named(tally, name, number);
    }
    for (name, size) in [
        ("LONGEST_TABLE", LONGEST_TABLE),
        ("LONGEST_REPLY", LONGEST_REPLY),
        ("LONGEST_STARTS", LONGEST_STARTS),
        ("LONGEST_TEXT", LONGEST_TEXT),
        ("STACK", stack::RESERVE),
    ] {
        check_named(tally, name, size);
    }
}

/// The example has every count at its highest, and its last operation decides its period. It
/// has no holds and names no decider; one behind it is read, and operations start before that
/// one's end.
fn largest_example(tally: &mut Tally) {
    let bytes = from_hex(include_str!("../examples/largest.hex"));
    tally.check("largest", bytes.len() == LONGEST_PLAIN);
    let table = judge(&bytes).expect("the example is accepted");
    let counts = (table.len, table.boards, table.cells, table.modes);
    tally.check("counts", counts == (1000, 16, 32, 32));
    tally.check("largest at 198", text(&bytes).starts_with("period 198\n"));
    let fewer = &bytes[..bytes.len() - 21];
    tally.check("without the last", text(fewer).starts_with("period 185\n"));
    tally.refused("largest", &joined(&bytes, "05 00 01 1c"), (10, 28, 0));
    tally.refused("largest", &joined(&bytes, "05 00 01 20"), (4, 818, 821));
}

/// Nothing is longer than the sizes say.
fn within_sizes(tally: &mut Tally, seed: &mut Seed) {
    let bytes = bytes_of(&generate::any_largest(seed));
    tally.check("table's size", bytes.len() <= LONGEST_TABLE);
    tally.check("text's size", text(&bytes).len() <= LONGEST_TEXT);
    let (mut reply, mut starts) = ([0; LONGEST_REPLY], [0; LONGEST_STARTS]);
    let planned = plan(&bytes, &mut reply);
    tally.check("reply's size", planned.is_ok());
    let reply = &reply[..planned.unwrap_or(0)];
    tally.check("starts' size", unfold(reply, &mut starts).is_ok());
}

// ---- the turn that nobody typed -----------------------------------------

/// Modes of the analyzer.
const COLD: u64 = 0;
const WARM: u64 = 1;

/// The runs of ten cycles that were typed: warm cycles and then cold ones, also none of either.
fn typed_runs() -> Vec<Vec<u64>> {
    (0..=10)
        .map(|warm| [vec![WARM; warm], vec![COLD; 10 - warm]].concat())
        .collect()
}

/// At the period of the table with the typed turns, the typed runs pass also on the table
/// with every turn. On a turn from cold to warm compensation takes an earlier cycle's
/// temperature there, and from the period of the second table up that of the cycle before;
/// both readings want the thermometer there, and the boards fit from 80 on.
fn untyped_turn(tally: &mut Tally) {
    let typed = from_hex(include_str!("../examples/analyzer-typed-turns.hex"));
    let every = from_hex(include_str!("../examples/analyzer-cold-to-warm.hex"));
    let table = judge(&every).expect("the example is accepted");
    let fits = |modes: &[u64], q| Run::new(&table, modes).boards_fit(q);
    let arrives = |modes: &[u64], q| Run::new(&table, modes).values_arrive(q);
    for (q, boards) in [(70, true), (69, false)] {
        let all_fit = typed_runs().iter().all(|modes| fits(modes, q));
        let all_arrive = typed_runs().iter().all(|modes| arrives(modes, q));
        tally.check("typed runs", all_fit == boards && all_arrive);
        tally.check("typed boards", boards_fit(&typed, q) == Ok(boards));
        tally.check("typed values", values_arrive(&typed, q) == Ok(true));
    }
    let turn = [COLD, COLD, WARM];
    for (q, boards, values) in [
        (70, false, false),
        (79, false, false),
        (80, true, false),
        (99, true, false),
        (100, true, true),
    ] {
        let said = (fits(&turn, q), arrives(&turn, q));
        tally.check("turn", said == (boards, values));
        tally.check("turn's boards", boards_fit(&every, q) == Ok(boards));
        tally.check("turn's values", values_arrive(&every, q) == Ok(values));
    }
    let (compensate, read, temperature) = (2, 4, 1);
    for (q, cycle) in [(200, 1), (100, 1), (99, 0), (70, 0)] {
        let taken = taken_from(&table, &turn, (compensate, 2), temperature, q);
        tally.check("temperature", taken == Some((read, cycle)));
    }
}

// ---- byte examples ------------------------------------------------------

/// The head of K1 and its operation so many times.
fn k1_times(times: usize) -> Vec<u8> {
    [&k1()[..22], &k1()[22..].repeat(times)].concat()
}

/// The first bytes of K1 so many, and more behind them.
fn joined(front: &[u8], more: &str) -> Vec<u8> {
    let mut bytes = front.to_vec();
    bytes.extend_from_slice(&from_hex(more));
    bytes
}

/// Points 1 to 4: header before tag, ends, bytes behind the end, order.
fn points_of_order(tally: &mut Tally) {
    let (k1, head) = (k1(), k1()[..22].to_vec());
    tally.refused("1", &from_hex("ff"), (1, 0, 0));
    tally.refused("1", &from_hex("ff 00"), (1, 0, 0));
    tally.refused("1", &from_hex("ff 00 00"), (2, 0, 0));
    tally.refused("1", &joined(&k1, "05 00"), (1, 43, 0));
    tally.refused("2", &from_hex("01 00 02 00 05"), (2, 5, 0));
    tally.refused("2", &head, (2, 22, 0));
    for byte in 0..=255 {
        tally.refused("3 one", &[&k1[..], &[byte]].concat(), (1, 43, 0));
        tally.refused("3 two", &[&k1[..], &[byte, byte]].concat(), (1, 43, 0));
    }
    tally.refused("3", &joined(&k1, "00 00 00"), (2, 43, 0));
    tally.refused("3", &joined(&k1, "04 00 00"), (3, 43, 0));
    tally.refused("3", &joined(&k1, "04 00 12"), (1, 43, 0));
    tally.refused("4", &joined(&k1[..11], "04 00 12"), (2, 11, 0));
    tally.refused("4", &joined(&k1[..11], "04 00"), (1, 11, 0));
}

/// Points 5 to 7: length before value, the 33rd, range before absence.
fn points_of_size(tally: &mut Tally) {
    tally.refused("5", &from_hex("01 00 03"), (3, 0, 0));
    tally.refused("5", &from_hex("01 00 02"), (1, 0, 0));
    tally.refused("5", &from_hex("01 ff ff"), (3, 0, 0));
    tally.refused("6", &joined(&k1_times(32), "04"), (1, 694, 0));
    tally.refused("6", &joined(&k1_times(32), "04 00 00"), (5, 694, 0));
    tally.refused("6", &joined(&k1_times(32), "05 00 01"), (1, 694, 0));
    tally.refused("6", &joined(&k1_times(32), "05 00 01 1f"), (6, 0, 1));
    tally.refused("6", &joined(&k1_times(32), "05 00 01 20"), (4, 694, 697));
    tally.refused("6", &joined(&k1_times(33), "05 00 01 00"), (5, 694, 0));
    let mut reply = from_hex("11 00 02 00 03");
    for _ in 0..32 {
        reply.extend_from_slice(&from_hex("12 00 04 00 01 00 00"));
    }
    tally.check("6 reply", unfold(&reply, &mut [0; 64]) == Ok(64));
    tally.reply_refused("6 reply", &joined(&reply, "12"), (1, 229, 0));
    tally.reply_refused("6 reply", &joined(&reply, "12 00 00"), (5, 229, 0));
    tally.reply_refused("6 reply", &joined(&reply, "11 00 02"), (2, 229, 0));
    tally.refused("7", &from_hex("01 00 02 00 00"), (4, 0, 3));
}

const RACE_THEN_CLASH: &str = "0100020004 020003040101 0300080000000100000001 \
    040012000000020001000000000000000100000001 040012000100020002000000010000000000000001 \
    040012000000020004000000000000000000000001 040012000100020004000000000000000000000001";

/// Points 8 and 9: fields before pairs, CLASH before RACE, no wrap.
fn points_of_pairs(tally: &mut Tally) {
    tally.refused("8", &k1_times(2), (6, 0, 1));
    tally.refused("8", &joined(&k1_times(2), "00"), (1, 64, 0));
    tally.refused("8", &from_hex(RACE_THEN_CLASH), (6, 2, 3));
    let first_two = &from_hex(RACE_THEN_CLASH)[..22 + 42];
    tally.refused("8 race", first_two, (7, 0, 1));
    let mut wrap = k1();
    wrap[25..29].copy_from_slice(&[0xff, 0xff, 0, 1]);
    tally.refused("9", &wrap, (4, 22, 27));
    tally.reply_refused(
        "9",
        &from_hex("11 00 02 03 e8 12 00 04 00 00 ff ff"),
        (4, 5, 10),
    );
}

const UNREACHED_CLASH: &str = "0100020004 020003010002 03000c000000010000000100000002 \
    040012000000020001000000000000000000000002 040012000100020001000000000000000000000002";

const UNREACHED_DECIDER: &str = "0100020004 020003020002 03000c000000010000000100000002 \
    040012000000010001000000000000000000000001 040012000100010002000000000000000000000001 05000100";

/// Point 10: pairs count unreachable modes, and so does "every mode" of the decider.
fn points_of_reach(tally: &mut Tally) {
    tally.refused("10", &from_hex(UNREACHED_CLASH), (6, 0, 1));
    tally.refused("10", &from_hex(UNREACHED_DECIDER), (10, 0, 0));
}

/// Point 11: "01's 818 and 821 bytes become 822 and 825", without holds. Behind 818 bytes a
/// field 05 may come; behind 822 nothing may.
fn points_of_length(tally: &mut Tally) {
    let longest = from_hex(include_str!("../examples/largest.hex"));
    let table = generate::longest_decided(&mut Seed::new(1));
    let decided = bytes_of(&table);
    check_written(tally, "11", &numbers_of(&table), &decided);
    for (bytes, length) in [(&longest, 818), (&decided, 822)] {
        tally.check("11", bytes.len() == length && judge(bytes).is_ok());
    }
    tally.refused("11", &joined(&longest, "04 00"), (1, 818, 0));
    tally.refused("11", &joined(&longest, "04 00 12"), (5, 818, 0));
    tally.refused("11", &joined(&longest, "00 00 12"), (2, 818, 0));
    tally.refused("11", &joined(&longest, "05 00 12"), (3, 818, 0));
    tally.refused("11", &joined(&longest, "05 00 01"), (1, 818, 0));
    for more in ["04", "04 00", "05 00", "00 00"] {
        tally.refused("11", &joined(&decided, more), (1, 822, 0));
    }
    for more in ["04 00 12", "05 00 01", "05 00 01 00", "00 00 00"] {
        tally.refused("11", &joined(&decided, more), (2, 822, 0));
        let mut longer = joined(&decided, more);
        longer.resize(5000, 4);
        tally.refused("11", &longer, (2, 822, 0));
    }
    let mut longer = joined(&longest, "04 00 12");
    longer.resize(5000, 4);
    tally.refused("11", &longer, (5, 818, 0));
}

/// K1 as numbers.
fn k1_numbers() -> Numbers {
    let ops = vec![1, 3, 1, 0, 0, 1];
    Numbers {
        p: 5,
        boards: 1,
        cells: 0,
        modes: 1,
        first: 1,
        follow: vec![1],
        ops,
        holds: vec![0, 0],
        mark: 0,
        decider: 0,
    }
}

/// K1 as numbers with other operation numbers, and a mark and a hold for each operation that
/// they begin.
fn k1_ops(ops: Vec<u64>) -> Numbers {
    let holds = vec![0; 2 * ((ops.len() + 5) / 6)];
    Numbers {
        ops,
        holds,
        ..k1_numbers()
    }
}

/// Point 12: within a field SIZE and SHORT come before RANGE.
fn points_of_numbers(tally: &mut Tally) {
    let mut out = [9; 44];
    tally.check("12 write", write_table(&k1_numbers(), &mut out) == Ok(43));
    tally.check("12 bytes", out[..43] == k1()[..] && out[43] == 9);
    tally.check(
        "12 room",
        write_table(&k1_numbers(), &mut [9; 42]) == Err(refusal_of((8, 43, 0))),
    );
    let bad = Numbers {
        first: 0,
        follow: vec![1, 1],
        ..k1_numbers()
    };
    tally.numbers_refused("12", &bad, (3, 11, 0));
    tally.numbers_refused("12", &k1_ops(vec![70000, 0, 1]), (1, 22, 0));
    tally.numbers_refused("12", &k1_ops(vec![1, 3, 1, 0, 0, 1, 1]), (1, 43, 0));
    let mut many: Vec<u64> = Vec::new();
    for _ in 0..32 {
        many.extend_from_slice(&k1_numbers().ops);
    }
    tally.numbers_refused("12", &k1_ops(many.clone()), (6, 0, 1));
    many.push(0);
    tally.numbers_refused("12", &k1_ops(many), (5, 694, 0));
    tally.numbers_refused("12", &k1_ops(vec![]), (2, 22, 0));
}

/// Point 13: too large is RANGE even where the low bits would be fine.
fn points_of_large_numbers(tally: &mut Tally) {
    tally.numbers_refused(
        "13",
        &Numbers {
            p: 65541,
            ..k1_numbers()
        },
        (4, 0, 3),
    );
    tally.numbers_refused(
        "13",
        &Numbers {
            boards: 257,
            ..k1_numbers()
        },
        (4, 5, 8),
    );
    let many = Numbers {
        follow: vec![1; 16385],
        ..k1_numbers()
    };
    tally.numbers_refused("13", &many, (3, 11, 0));
    tally.numbers_refused(
        "13",
        &Numbers {
            first: (1 << 32) + 1,
            ..k1_numbers()
        },
        (4, 11, 14),
    );
    for (place, b) in [25, 27, 29, 31, 35, 39].into_iter().enumerate() {
        let mut ops = k1_numbers().ops;
        ops[place] += 1 << 32;
        tally.numbers_refused("13", &k1_ops(ops), (4, 22, b));
        let mut ops = k1_numbers().ops;
        ops[place] = u64::MAX;
        tally.numbers_refused("13", &k1_ops(ops), (4, 22, b));
    }
}

// ---- the decider --------------------------------------------------------

/// K1 with its only operation as the decider.
fn k1_decided() -> Vec<u8> {
    joined(&k1(), "05 00 01 00")
}

/// Point 24: the field. K1 is planned with it as without it.
fn points_of_decider_field(tally: &mut Tally) {
    let (k1, head) = (k1(), k1()[..22].to_vec());
    let table = judge(&k1_decided());
    tally.check("24", table.map(|table| table.decider) == Ok(Some(0)));
    tally.check(
        "24",
        text(&k1_decided()) == "period 3\nop 0 start 1 fst 0\n",
    );
    tally.check("24", judge(&k1).map(|table| table.decider) == Ok(None));
    for (more, refusal) in [
        ("05", (1, 43, 0)),
        ("05 00", (1, 43, 0)),
        ("05 00 01", (1, 43, 0)),
        ("05 00 00", (3, 43, 0)),
        ("05 00 02 00 00", (3, 43, 0)),
        ("05 00 12", (3, 43, 0)),
        ("05 01 01 00", (3, 43, 0)),
        ("05 ff ff", (3, 43, 0)),
        ("05 00 01 01", (4, 43, 46)),
        ("05 00 01 ff", (4, 43, 46)),
        ("05 00 01 01 04", (4, 43, 46)),
        ("05 00 01 01 05 00 01 00", (4, 43, 46)),
    ] {
        tally.refused("24", &joined(&k1, more), refusal);
    }
    let both = changed(&joined(&k1, "05 00 01 01"), 27, "0005");
    tally.refused("24 left to right", &both, (4, 22, 27));
    tally.refused("24", &joined(&head, "05"), (1, 22, 0));
    tally.refused("24", &joined(&head, "05 00"), (1, 22, 0));
    tally.refused("24", &joined(&head, "05 00 01 00"), (2, 22, 0));
    let before = [&joined(&head, "05 00 01 00")[..], &k1[22..]].concat();
    tally.refused("24", &before, (2, 22, 0));
    for (at, a) in [(0, 0), (5, 5), (11, 11)] {
        tally.refused("24", &joined(&k1[..at], "05 00 01 00"), (2, a, 0));
    }
}

/// Point 24: "a field after 05 is ORDER", whatever its tag, length and value; a header that is
/// not whole is SHORT.
fn points_behind_decider(tally: &mut Tally) {
    let decided = k1_decided();
    for byte in 0..=255 {
        let behind = |more: &[u8]| [&decided[..], more].concat();
        tally.refused("24 one", &behind(&[byte]), (1, 47, 0));
        tally.refused("24 two", &behind(&[byte, 0]), (1, 47, 0));
        tally.refused("24 three", &behind(&[byte, 0, 1]), (2, 47, 0));
        tally.refused("24 four", &behind(&[byte, 0, 1, 0]), (2, 47, 0));
    }
    tally.refused("24", &joined(&decided, "04 00 12"), (2, 47, 0));
    let operation = [&decided[..], &k1()[22..]].concat();
    tally.refused("24", &operation, (2, 47, 0));
    let many = joined(&k1_times(32), "05 00 01 00");
    tally.refused("24", &joined(&many, "04"), (1, 698, 0));
    tally.refused("24", &joined(&many, "04 00 12"), (2, 698, 0));
    tally.refused("24", &[&many[..], &k1()[22..]].concat(), (2, 698, 0));
}

/// Two modes, and no run reaches mode 1. On boards of their own [0,1) and the decider [1,3) in
/// both modes, [3,4) in mode 0, [4,5) in mode 1. The fields of the operations are at 26, 47, 68
/// and 89, field 05 is at 110.
const DECIDED: &str = "0100020006 020003040102 03000c000000010000000100000002 \
    040012000000010001000000000000000000000003 040012000100020002000000000000000000000003 \
    040012000300010004000000000000000000000001 040012000400010008000000000000000000000002 05000101";

/// Bytes from offsets on that leave it accepted. An operation that runs in every mode may start
/// before the decider's end, and one that does not may start at it. Any that runs in every mode
/// may be the decider, where the others wait for its end.
const IN_TIME: [&[(usize, &str)]; 10] = [
    &[],
    &[(71, "0004")],
    &[(71, "0003"), (92, "0003")],
    &[(50, "0001 0001"), (71, "0002"), (92, "0002")],
    &[(50, "0001 0003"), (71, "0004")],
    &[(50, "0000 0003"), (92, "0003")],
    &[(71, "0000"), (85, "00000003")],
    &[
        (71, "0002"),
        (85, "00000003"),
        (92, "0001"),
        (106, "00000003"),
    ],
    &[(29, "0000 0003"), (113, "00")],
    &[(113, "00")],
];

/// Others, and how it is then refused: "with a the decider and b the lowest operation that
/// starts too early, or b the decider itself where it doesn't run in every mode, which is tested
/// first". It comes after RANGE, CLASH and RACE.
const TOO_EARLY: [(&[(usize, &str)], (u32, u64, u64)); 20] = [
    (&[(71, "0002")], (10, 1, 2)),
    (&[(71, "0000")], (10, 1, 2)),
    (&[(92, "0002")], (10, 1, 3)),
    (&[(71, "0002"), (92, "0002")], (10, 1, 2)),
    (&[(50, "0001 0003")], (10, 1, 2)),
    (&[(50, "0002 0002")], (10, 1, 2)),
    (&[(50, "0001 0003"), (71, "0004"), (92, "0003")], (10, 1, 3)),
    (&[(43, "00000001")], (10, 1, 0)),
    (&[(43, "00000002"), (71, "0002")], (10, 1, 0)),
    (&[(64, "00000001")], (10, 1, 1)),
    (&[(64, "00000002")], (10, 1, 1)),
    (&[(64, "00000001"), (43, "00000001")], (10, 1, 1)),
    (&[(113, "02")], (10, 2, 2)),
    (&[(113, "03")], (10, 3, 3)),
    (&[(113, "00"), (29, "0000 0004")], (10, 0, 2)),
    (&[(113, "04")], (4, 110, 113)),
    (&[(113, "04"), (64, "00000001")], (4, 110, 113)),
    (&[(71, "0002 0001 0002")], (6, 1, 2)),
    (
        &[(60, "00000001"), (71, "0002"), (77, "00000001")],
        (7, 1, 2),
    ),
    (
        &[(64, "00000001"), (92, "0003 0001 0004"), (106, "00000001")],
        (6, 2, 3),
    ),
];

/// The table with all of the changes.
fn changed_all(changes: &[(usize, &str)]) -> Vec<u8> {
    let change = |bytes: Vec<u8>, (at, digits): &(usize, &str)| changed(&bytes, *at, digits);
    changes.iter().fold(from_hex(DECIDED), change)
}

/// Points 10 and 25: what is in time is planned as it is without a decider; what is too early
/// is refused as bytes and as numbers.
fn points_of_early(tally: &mut Tally) {
    for changes in IN_TIME {
        let bytes = changed_all(changes);
        let name = format!("25 {:?}", changes);
        let table = judge(&bytes);
        tally.check(&name, table.as_ref().map(bytes_of) == Ok(bytes.clone()));
        tally.check(&name, text(&bytes) == text(&bytes[..110]));
        tally.check(&name, text(&bytes).starts_with("period "));
    }
    for (changes, figures) in TOO_EARLY {
        let bytes = changed_all(changes);
        let name = format!("25 {:?}", changes);
        tally.refused(&name, &bytes, figures);
        if let Ok(table) = read_table(&bytes) {
            tally.numbers_refused(&name, &numbers_of(&table), figures);
        }
    }
}

/// EARLY comes before ROOM; ASK and ROOM come as without a decider.
fn points_after_early(tally: &mut Tally) {
    let early = changed_all(&[(71, "0002")]);
    let refusal = Err(refusal_of((10, 1, 2)));
    tally.check("25 room", plan(&early, &mut []) == refusal);
    let table = read_table(&early).expect("its fields are good");
    tally.check(
        "25 room",
        write_table(&numbers_of(&table), &mut []) == refusal,
    );
    let good = from_hex(DECIDED);
    tally.check(
        "25 room",
        plan(&good, &mut [0; 32]) == Err(refusal_of((8, 33, 0))),
    );
    tally.check("25 room", plan(&good, &mut [0; 33]) == Ok(33));
    tally.check("25 ask", boards_fit(&good, 7) == Err(refusal_of((9, 0, 0))));
    tally.check(
        "25 ask",
        margin(&good, 1, 4, 1, 2) == Err(refusal_of((9, 1, 0))),
    );
    tally.check("25 margin", margin(&good, 1, 1, 1, 2) == Ok(0));
}

/// K1 as numbers with this mark and this decider.
fn k1_marked(mark: u64, decider: u64) -> Numbers {
    Numbers {
        mark,
        decider,
        ..k1_numbers()
    }
}

/// The numbers are written as these bytes, and into no fewer.
fn check_written(tally: &mut Tally, name: &str, numbers: &Numbers, bytes: &[u8]) {
    let (length, mut out) = (bytes.len(), vec![9; bytes.len() + 1]);
    tally.check(name, write_table(numbers, &mut out) == Ok(length));
    tally.check(name, out[..length] == *bytes && out[length] == 9);
    let few = write_table(numbers, &mut out[..length - 1]);
    tally.check(name, few == Err(refusal_of((8, length as u64, 0))));
}

/// Points 13 and 15: the mark is unset where it is 0, and then the decider counts for nothing
/// and is not written; by every other mark it is there.
fn points_of_marks(tally: &mut Tally) {
    for decider in [0, 1, 255, 256, 1 << 32, u64::MAX] {
        check_written(tally, "15", &k1_marked(0, decider), &k1());
    }
    for mark in [1, 2, 256, 1 << 16, 1 << 32, 1 << 63, u64::MAX] {
        check_written(tally, "15", &k1_marked(mark, 0), &k1_decided());
        for decider in [1, 31, 32, 255, 256, 257, 1 << 32, u64::MAX] {
            let mut numbers = k1_marked(mark, decider);
            tally.numbers_refused("13", &numbers, (4, 43, 46));
            numbers.ops[1] = 5;
            tally.numbers_refused("13 left to right", &numbers, (4, 22, 27));
        }
    }
}

/// As if written and read: nothing is written behind an operation with numbers missing, and
/// field 05 stands where an operation is due, or behind a 33rd one.
fn points_of_marked_numbers(tally: &mut Tally) {
    for (mark, decider) in [(0, 0), (1, 0), (1, 1), (1, 256), (u64::MAX, u64::MAX)] {
        let mut numbers = k1_marked(mark, decider);
        let six = numbers.ops.clone();
        for length in 1..6 {
            numbers.ops.truncate(6 - length);
            tally.numbers_refused("15 few", &numbers, (1, 22, 0));
        }
        numbers.ops.clear();
        numbers.holds.clear();
        tally.numbers_refused("15 none", &numbers, (2, 22, 0));
        numbers.ops = [&six[..], &[0]].concat();
        numbers.holds = vec![0, 0];
        tally.numbers_refused("15 more", &numbers, (1, 43, 0));
        (numbers.ops, numbers.holds) = (six.repeat(33), vec![0; 66]);
        tally.numbers_refused("15 many", &numbers, (5, 694, 0));
        (numbers.ops, numbers.holds) = (six, vec![0, 0]);
        numbers.follow.push(1);
        tally.numbers_refused("15 words", &numbers, (3, 11, 0));
    }
    let all = Numbers {
        ops: k1_numbers().ops.repeat(32),
        holds: k1_numbers().holds.repeat(32),
        ..k1_marked(1, 32)
    };
    tally.numbers_refused("15 beyond", &all, (4, 694, 697));
}

/// Of runs laid out. The decider lasts two ticks, so its turns are kept from period 2 on. An
/// operation [2,3) of mode 0 does not wait for it, whatever the period. In a mode in which it
/// does not run a cycle has none, and in the others it would have to wait for itself.
fn decider_in_runs(tally: &mut Tally) {
    let table = judge(&from_hex(DECIDED)).expect("it is accepted");
    let run = Run::new(&table, &[0, 0, 0]);
    for (q, in_turn) in [(1, false), (2, true), (3, true), (6, true)] {
        tally.check("turns", run.decides_in_turn(q) == in_turn);
        tally.check("waits", run.decides_first(q));
    }
    let early = read_table(&changed_all(&[(71, "0002")])).expect("its fields are good");
    let run = Run::new(&early, &[0, 0]);
    tally.check("early", [1, 2, 6].iter().all(|q| !run.decides_first(*q)));
    let run = Run::new(&early, &[1, 1]);
    tally.check("does not run", run.decides_first(6));
    let missing = read_table(&changed_all(&[(64, "00000001")])).expect("its fields are good");
    for (modes, decided) in [([0, 0], true), ([0, 1], false), ([1, 1], false)] {
        let run = Run::new(&missing, &modes);
        tally.check("in each cycle", run.decides_in_turn(6) == decided);
        tally.check("waits for itself", !run.decides_first(6));
    }
}

// ---- the hold -----------------------------------------------------------

/// K1 with 20 bytes: `0001 0003`, a hold of one tick, and the sets. The operation's field has 23
/// bytes, and a field behind it is at 45.
const K1_HELD: &str = "0100020005 020003010001 0300080000000100000001 \
    04 0014 0001 0003 0001 0001 00000000 00000000 00000001";

fn k1_held() -> Vec<u8> {
    from_hex(K1_HELD)
}

/// "Boards are held until start + duration + hold"; "margins still go by the duration". K1 is
/// held for four ticks then. "An 18-byte field means hold 0."
fn held_bench(tally: &mut Tally) {
    let (yes, no) = (true, false);
    let held = k1_held();
    let boards = [no, no, no, yes, yes];
    tally.check("hold 1", text(&held) == "period 4\nop 0 start 1 fst 0\n");
    check_answers(tally, "hold 1", &held, &boards, &[yes; 5]);
    for (q, left) in [(2, -1), (3, 0), (4, 1), (5, 2)] {
        tally.check("hold 1 margin", margin(&held, 0, 0, 1, q) == Ok(left));
    }
    let table = judge(&held).expect("it is accepted");
    tally.check("hold 1", table.ops[0].hold == Some(1));
    tally.check("hold 1 written", bytes_of(&table) == held);
    let plain = judge(&k1()).expect("K1 is accepted");
    tally.check("no hold", plain.ops[0].hold.is_none());
    let decided = joined(&held, "05 00 01 00");
    tally.check("hold 1 decided", text(&decided) == text(&held));
}

/// K2 with a hold in its first, its second and its last field: the boards are held for longer,
/// the values arrive as without it.
fn held_values(tally: &mut Tally) {
    let k2 = judge(&from_hex(include_str!("../examples/k02.hex"))).expect("K2 is accepted");
    for (which, hold, first) in [(0, 1, 3), (0, 4, 6), (1, 2, 4), (1, 1, 3)] {
        let mut table = k2.clone();
        table.ops[which].hold = Some(hold);
        let bytes = bytes_of(&table);
        let boards: Vec<bool> = (1..=6).map(|q| q >= first).collect();
        let values: Vec<bool> = (1..=6).map(|q| q >= 1).collect();
        check_answers(tally, "K2 held", &bytes, &boards, &values);
        tally.check("K2 period", period(&table) == first);
    }
    let mut table = k2;
    table.ops[2].hold = Some(1);
    tally.refused("K2 past p", &bytes_of(&table), (4, 64, 71));
}

/// In a 20-byte field of K1: "a 20-byte field with hold 0 is RANGE and blames the hold; so does a
/// hold that alone runs past p". Points 9 and 17: no wrap, layout order, and sets moved by two.
const WRONG_HELD: [Wrong; 26] = [
    (29, "0000", 22, 29),
    (29, "0002", 22, 29),
    (29, "ffff", 22, 29),
    (29, "fffc", 22, 29),
    (29, "fffd", 22, 29),
    (25, "0002", 22, 29),
    (27, "0004", 22, 29),
    (27, "0004 0000", 22, 29),
    (3, "0004", 22, 29),
    (25, "0000 0005 0001", 22, 29),
    (27, "0005 0000", 22, 27),
    (27, "0005", 22, 27),
    (27, "0000 0000", 22, 27),
    (27, "0000", 22, 27),
    (27, "ffff ffff", 22, 27),
    (25, "ffff 0001 0001", 22, 27),
    (25, "ffff ffff ffff", 22, 27),
    (25, "0005 0001 0000", 22, 27),
    (31, "0000", 22, 31),
    (31, "0002 00000001", 22, 31),
    (33, "00000001 00000001", 22, 33),
    (37, "00000001 00000000", 22, 37),
    (41, "00000000", 22, 41),
    (41, "00000003", 22, 41),
    (29, "0000 0000 00000001 00000001 00000000", 22, 29),
    (18, "00000000 040014 0001 0005 0000", 11, 18),
];

fn places_in_held(tally: &mut Tally) {
    let held = k1_held();
    check_wrong(tally, &held, &WRONG_HELD);
    check_right(tally, &held, &[(25, "0000"), (25, "0000 0003 0002")]);
    check_right(tally, &held, &[(25, "0000 0001 0004"), (27, "0002 0002")]);
    let decided = joined(&held, "05 00 01 00");
    check_wrong(tally, &decided, &[(48, "01", 45, 48), (29, "0000", 22, 29)]);
    // at 45 a plain field behind it, at 66 another with a hold
    let three = [&held[..], &k1()[22..], &held[22..]].concat();
    let wrong = [
        (25, "0005", 22, 27),
        (50, "0000", 45, 50),
        (52, "0000", 45, 52),
        (62, "00000000", 45, 62),
        (71, "0000", 66, 71),
        (73, "0000", 66, 73),
        (75, "0000", 66, 75),
        (85, "00000000", 66, 85),
    ];
    check_wrong(tally, &three, &wrong);
    tally.refused("three", &three, (6, 0, 1));
    tally.refused("three", &joined(&three, "05 00 01 03"), (4, 89, 92));
    tally.refused("three", &joined(&three, "05 00 01 02"), (6, 0, 1));
}

/// "SIZE now admits 18 and 20"; the length comes before the value, and the value before its
/// ranges.
fn sizes_of_ops(tally: &mut Tally) {
    for (table, good) in [(k1(), 18), (k1_held(), 20)] {
        for length in (0..600)
            .chain([4608, 5120, 65535])
            .filter(|it| ![18, 20].contains(it))
        {
            let digits = format!("{:04x}", length);
            tally.refused(&digits, &changed(&table, 23, &digits), (3, 22, 0));
            tally.refused(&digits, &changed(&table[..25], 23, &digits), (3, 22, 0));
        }
        for cut in 23..table.len() {
            tally.refused("cut", &table[..cut], (1, 22, 0));
        }
        tally.check("whole", table.len() == 25 + good && judge(&table).is_ok());
    }
    // 18 bytes that are called 20, and 20 that are called 18
    tally.refused("20", &changed(&k1(), 23, "0014"), (1, 22, 0));
    tally.refused("18", &changed(&k1_held(), 23, "0012"), (4, 22, 31));
    let both = joined(&changed(&k1(), 23, "0014"), "04 00 12");
    tally.refused("20", &both, (4, 22, 31));
    // one more or fewer than 20, in bytes that are there
    tally.refused(
        "21",
        &joined(&changed(&k1_held(), 23, "0015"), "00"),
        (3, 22, 0),
    );
    tally.refused("19", &changed(&k1_held(), 23, "0013")[..44], (3, 22, 0));
    let second = joined(&k1_held(), "04 00 13");
    tally.refused("second", &second, (3, 45, 0));
    tally.refused("second", &joined(&k1_held(), "04 00"), (1, 45, 0));
    tally.refused("second", &joined(&k1_held(), "04 00 14"), (1, 45, 0));
    tally.refused("second", &joined(&k1_held(), "04 00 12"), (1, 45, 0));
    tally.refused("second", &joined(&k1_held(), "00 00 14"), (2, 45, 0));
}

/// Of one mode, p 6 and two boards: operations by start, duration, hold (0 for none), board,
/// reads and writes.
fn held_table(ops: &[[u64; 6]]) -> Vec<u8> {
    let op = |six: &[u64; 6]| Op {
        start: six[0],
        dur: six[1],
        hold: Some(six[2]).filter(|hold| *hold != 0),
        boards: six[3],
        reads: six[4],
        writes: six[5],
        modes: 1,
    };
    bytes_of(&Table {
        len: 6,
        boards: 2,
        cells: 1,
        modes: 1,
        first: 1,
        follow: vec![1],
        ops: ops.iter().map(op).collect(),
        decider: None,
    })
}

/// CLASH follows the hold of either operation, whichever has the lower number, also by one tick
/// and also where both have one; what touches does not clash. "cells .. still go by the
/// duration": an operation on another board may use the cell, and one on the same board clashes
/// before it could race.
fn held_pairs(tally: &mut Tally) {
    let pairs: [([u64; 6], [u64; 6], Option<u32>); 12] = [
        ([0, 1, 1, 1, 0, 0], [1, 1, 0, 1, 0, 0], Some(6)),
        ([0, 1, 1, 1, 0, 0], [2, 1, 0, 1, 0, 0], None),
        ([0, 1, 3, 1, 0, 0], [3, 1, 0, 1, 0, 0], Some(6)),
        ([0, 1, 3, 1, 0, 0], [4, 1, 1, 1, 0, 0], None),
        ([0, 1, 5, 1, 0, 0], [5, 1, 0, 1, 0, 0], Some(6)),
        ([0, 1, 5, 3, 0, 0], [5, 1, 0, 2, 0, 0], Some(6)),
        ([0, 1, 5, 1, 0, 0], [5, 1, 0, 2, 0, 0], None),
        ([0, 1, 5, 1, 0, 1], [1, 1, 4, 2, 1, 0], None),
        ([0, 2, 4, 1, 0, 1], [1, 1, 0, 2, 1, 0], Some(7)),
        ([0, 2, 4, 1, 0, 1], [2, 1, 0, 1, 1, 1], Some(6)),
        ([0, 1, 5, 1, 1, 1], [1, 1, 0, 2, 0, 1], None),
        ([2, 1, 3, 1, 0, 0], [0, 2, 0, 1, 0, 0], None),
    ];
    for (one, other, refused) in pairs {
        for ops in [[one, other], [other, one]] {
            let (bytes, name) = (held_table(&ops), format!("{:?}", ops));
            match refused {
                Some(number) => tally.refused(&name, &bytes, (number, 0, 1)),
                None => tally.check(&name, judge(&bytes).is_ok()),
            }
        }
    }
}

/// "EARLY .. still go by the duration": beside a decider [1,3) that holds its board for longer,
/// what does not run in every mode may start at 3, and not at 2.
fn held_early(tally: &mut Tally) {
    let mut table = judge(&from_hex(DECIDED)).expect("it is accepted");
    for hold in 1..=3 {
        table.ops[1].hold = Some(hold);
        let bytes = bytes_of(&table);
        tally.check("in its hold", judge(&bytes).is_ok());
        tally.check("its length", bytes.len() == 116);
        // the third operation's field is two bytes farther
        let early = changed(&bytes, 73, "0002");
        tally.refused("before its end", &early, (10, 1, 2));
        let shared = changed(&bytes, 77, "0002");
        tally.refused("on its board", &shared, (6, 1, 2));
    }
    table.ops[1].hold = Some(4);
    tally.refused("past p", &bytes_of(&table), (4, 47, 54));
    table.ops[1].hold = Some(3);
    let run = Run::new(&table, &[0, 0, 0]);
    for (q, fit, in_turn) in [
        (1, false, false),
        (2, false, true),
        (4, false, true),
        (5, true, true),
    ] {
        tally.check("turns", run.decides_in_turn(q) == in_turn);
        tally.check("waits", run.decides_first(q));
        tally.check("held", run.boards_fit(q) == fit && run.values_arrive(q));
    }
}

/// "the longest table has 886 bytes, with the decider's field, and no answer depends on bytes
/// past 889": the third header byte behind it is the last that is looked at.
fn held_longest(tally: &mut Tally) {
    let table = generate::longest_held(&mut Seed::new(1));
    let decided = bytes_of(&table);
    let longest = &decided[..882];
    check_written(tally, "886", &numbers_of(&table), &decided);
    tally.check("886", decided.len() == 886 && LONGEST_TABLE == 886);
    tally.check("886", judge(&decided).is_ok() && judge(longest).is_ok());
    for (more, refusal) in [
        ("04", (1, 882, 0)),
        ("04 00", (1, 882, 0)),
        ("04 00 12", (5, 882, 0)),
        ("04 00 14", (5, 882, 0)),
        ("04 00 13", (5, 882, 0)),
        ("00 00 14", (2, 882, 0)),
        ("05 00 14", (3, 882, 0)),
        ("05 00 01", (1, 882, 0)),
        ("05 00 01 20", (4, 882, 885)),
    ] {
        tally.refused(more, &joined(longest, more), refusal);
    }
    for (more, refusal) in [
        ("04", (1, 886, 0)),
        ("04 00", (1, 886, 0)),
        ("04 00 14", (2, 886, 0)),
        ("05 00 01", (2, 886, 0)),
        ("00 00 00", (2, 886, 0)),
    ] {
        let mut longer = joined(&decided, more);
        tally.refused(more, &longer, refusal);
        if longer.len() == 889 {
            longer.resize(5000, 4);
            tally.refused(more, &longer, refusal);
        }
    }
    let many = [&k1()[..22], &k1_held()[22..].repeat(32)].concat();
    tally.refused("32", &many, (6, 0, 1));
    tally.refused("33", &[&many[..], &k1_held()[22..]].concat(), (5, 758, 0));
    tally.refused("33", &[&many[..], &k1()[22..]].concat(), (5, 758, 0));
}

/// K1 as numbers with these marks and holds.
fn k1_holds(holds: &[u64]) -> Numbers {
    Numbers {
        holds: holds.to_vec(),
        ..k1_numbers()
    }
}

/// Point 15: "A hold .. with its mark unset is not written whatever its number; hold 0 with the
/// mark set is RANGE". Point 13: a hold too large for its field is RANGE.
fn points_of_hold_marks(tally: &mut Tally) {
    for hold in [0, 1, 2, 65535, 65536, 65537, u64::MAX] {
        check_written(tally, "15", &k1_holds(&[0, hold]), &k1());
    }
    for mark in [1, 2, 255, 256, 1 << 16, 1 << 32, 1 << 63, u64::MAX] {
        check_written(tally, "15", &k1_holds(&[mark, 1]), &k1_held());
        for hold in [
            0,
            2,
            65532,
            65535,
            65536,
            65537,
            1 << 32,
            (1 << 32) + 1,
            u64::MAX,
        ] {
            let mut numbers = k1_holds(&[mark, hold]);
            tally.numbers_refused("15", &numbers, (4, 22, 29));
            numbers.ops[2] = 0;
            tally.numbers_refused("15 before boards", &numbers, (4, 22, 29));
            numbers.ops[1] = 5;
            tally.numbers_refused("15 behind duration", &numbers, (4, 22, 27));
            numbers.ops[1] = u64::MAX;
            tally.numbers_refused("15 behind duration", &numbers, (4, 22, 27));
            numbers.ops[0] = u64::MAX;
            tally.numbers_refused("15 behind start", &numbers, (4, 22, 25));
        }
        for (place, b) in [(2, 31), (3, 33), (4, 37), (5, 41)] {
            let mut numbers = k1_holds(&[mark, 1]);
            numbers.ops[place] += 1 << 32;
            tally.numbers_refused("15 sets", &numbers, (4, 22, b));
        }
        let numbers = k1_holds(&[mark, 1]);
        let decided = Numbers {
            mark: 1,
            ..numbers.clone()
        };
        check_written(tally, "15", &decided, &joined(&k1_held(), "05 00 01 00"));
        let decider = 1;
        let beyond = Numbers { decider, ..decided };
        tally.numbers_refused("15 decider", &beyond, (4, 45, 48));
    }
}

/// Of a mark or a hold missing, or more of them: SHORT at that operation's place, before its
/// ranges; a 33rd is MANY before that. The place goes by the lengths of the fields before it.
fn points_of_hold_counts(tally: &mut Tally) {
    for holds in [&[][..], &[0], &[1], &[u64::MAX]] {
        let mut numbers = k1_holds(holds);
        tally.numbers_refused("12 few", &numbers, (1, 22, 0));
        numbers.ops = vec![70000, 0, 0, 0, 0, 0];
        tally.numbers_refused("12 before RANGE", &numbers, (1, 22, 0));
        numbers.follow.push(1);
        tally.numbers_refused("12 behind SIZE", &numbers, (3, 11, 0));
    }
    for more in [&[0][..], &[1], &[0, 0], &[1, 1], &[1, 1, 1, 1]] {
        let holds = |two: [u64; 2]| [&two[..], more].concat();
        tally.numbers_refused("12 more", &k1_holds(&holds([0, 0])), (1, 43, 0));
        tally.numbers_refused("12 more", &k1_holds(&holds([1, 1])), (1, 45, 0));
        tally.numbers_refused("12 behind RANGE", &k1_holds(&holds([1, 0])), (4, 22, 29));
        let mut numbers = k1_holds(more);
        numbers.ops.clear();
        tally.numbers_refused("12 alone", &numbers, (1, 22, 0));
        numbers.ops = k1_numbers().ops.repeat(32);
        for (mark, at) in [(0, 694), (1, 758)] {
            numbers.holds = [&[mark, 1].repeat(32)[..], more].concat();
            tally.numbers_refused("12 many", &numbers, (5, at, 0));
        }
    }
    for (ops, holds, refusal) in [
        (0, 0, (2, 22, 0)),
        (12, 2, (1, 45, 0)),
        (12, 3, (1, 45, 0)),
        (12, 4, (6, 0, 1)),
        (13, 4, (1, 68, 0)),
        (12, 5, (1, 68, 0)),
        (7, 4, (1, 45, 0)),
        (7, 2, (1, 45, 0)),
        (32 * 6, 63, (1, 22 + 31 * 23, 0)),
        (32 * 6, 64, (6, 0, 1)),
        (33 * 6, 64, (5, 758, 0)),
        (33 * 6, 66, (5, 758, 0)),
        (33 * 6, 65, (5, 758, 0)),
    ] {
        let mut numbers = k1_holds(&[1, 1].repeat(34));
        numbers.ops = numbers.ops.repeat(34);
        numbers.ops.truncate(ops);
        numbers.holds.truncate(holds);
        tally.numbers_refused(&format!("12 {} {}", ops, holds), &numbers, refusal);
    }
}

// ---- the places where a number is wrong ---------------------------------

/// The bytes with others from an offset on.
fn changed(bytes: &[u8], at: usize, digits: &str) -> Vec<u8> {
    let (mut all, new) = (bytes.to_vec(), from_hex(digits));
    all[at..at + new.len()].copy_from_slice(&new);
    all
}

/// Bytes from an offset on, and the field and the number in which they are wrong.
type Wrong = (usize, &'static str, u64, u64);

/// The table with each of the changes is refused where it says so.
fn check_wrong(tally: &mut Tally, table: &[u8], wrong: &[Wrong]) {
    for (at, digits, a, b) in wrong {
        tally.refused(digits, &changed(table, *at, digits), (4, *a, *b));
    }
}

/// The table with each of the changes is accepted.
fn check_right(tally: &mut Tally, table: &[u8], right: &[(usize, &str)]) {
    for (at, digits) in right {
        tally.check(digits, judge(&changed(table, *at, digits)).is_ok());
    }
}

/// In fields 01 to 03 of K1: both sides of each range, then several wrong numbers.
const WRONG_HEADS: [Wrong; 22] = [
    (3, "0000", 0, 3),
    (3, "03e9", 0, 3),
    (3, "ffff", 0, 3),
    (8, "00", 5, 8),
    (8, "11", 5, 8),
    (9, "21", 5, 9),
    (9, "ff", 5, 9),
    (10, "00", 5, 10),
    (10, "21", 5, 10),
    (14, "00000000", 11, 14),
    (14, "00000002", 11, 14),
    (14, "80000001", 11, 14),
    (18, "00000000", 11, 18),
    (18, "00000002", 11, 18),
    (8, "00 21 00", 5, 8),
    (8, "11 00 21", 5, 8),
    (8, "10 21 00", 5, 9),
    (8, "10 20 21", 5, 10),
    (14, "00000000 00000000", 11, 14),
    (14, "00000003 00000002", 11, 14),
    (14, "00000001 00000003", 11, 18),
    (3, "0000 020003 00", 0, 3),
];

/// In the followers of the second and of the last of K7's three modes.
const WRONG_FOLLOWERS: [Wrong; 6] = [
    (22, "00000000", 11, 22),
    (22, "00000008", 11, 22),
    (22, "00000008 00000000", 11, 22),
    (26, "00000000", 11, 26),
    (26, "00000008", 11, 26),
    (26, "00000008 040012 0006", 11, 26),
];

fn places_in_head(tally: &mut Tally) {
    check_wrong(tally, &k1(), &WRONG_HEADS);
    check_right(tally, &k1(), &[(3, "03e8"), (3, "0004"), (8, "10 20")]);
    let k7 = from_hex(include_str!("../examples/k07.hex"));
    check_wrong(tally, &k7, &WRONG_FOLLOWERS);
    check_right(tally, &k7, &[(22, "00000007"), (26, "00000004")]);
}

/// In field 04 of K1. "An operation that ends after p blames its duration", also one that
/// starts at p or later.
const WRONG_OPS: [Wrong; 22] = [
    (27, "0000", 22, 27),
    (27, "0005", 22, 27),
    (27, "ffff", 22, 27),
    (25, "0003", 22, 27),
    (25, "0005 0001", 22, 27),
    (25, "0005 0000", 22, 27),
    (25, "ffff 0001", 22, 27),
    (25, "ffff ffff", 22, 27),
    (3, "0003", 22, 27),
    (29, "0000", 22, 29),
    (29, "0002", 22, 29),
    (29, "8001", 22, 29),
    (31, "00000001", 22, 31),
    (31, "80000000", 22, 31),
    (35, "00000001", 22, 35),
    (39, "00000000", 22, 39),
    (39, "00000002", 22, 39),
    (25, "0005 0001 0000 00000001 00000001 00000000", 22, 27),
    (27, "0004 0000 00000001 00000001 00000000", 22, 29),
    (29, "0001 00000001 00000001 00000000", 22, 31),
    (31, "00000000 00000001 00000000", 22, 35),
    (18, "00000000 040012 0001 0005", 11, 18),
];

/// In K1's operation twice: in the second one, and in both.
const WRONG_SECONDS: [Wrong; 4] = [
    (48, "0000", 43, 48),
    (50, "0002 00000001", 43, 50),
    (60, "00000002", 43, 60),
    (39, "00000000 040012 0001 0005", 22, 39),
];

fn places_in_op(tally: &mut Tally) {
    check_wrong(tally, &k1(), &WRONG_OPS);
    check_wrong(tally, &k1_times(2), &WRONG_SECONDS);
    check_right(tally, &k1(), &[(27, "0004"), (25, "0002")]);
    check_right(tally, &k1(), &[(25, "0004 0001"), (25, "0000 0005")]);
}

/// In a reply of two rows. "a reply's unfolded start above 999 its start index"
const WRONG_REPLIES: [Wrong; 16] = [
    (3, "0000", 0, 3),
    (3, "03e9", 0, 3),
    (3, "03e9 120004 ffff ffff", 0, 3),
    (3, "0001", 5, 8),
    (8, "0003", 5, 8),
    (8, "ffff", 5, 8),
    (8, "0001 014d", 5, 10),
    (8, "0002 ffff", 5, 10),
    (8, "0003 014d", 5, 8),
    (8, "ffff ffff", 5, 8),
    (3, "03e8 120004 03e8 0000", 5, 8),
    (3, "03e8 120004 0000 0001", 5, 10),
    (15, "0003 0000", 12, 15),
    (15, "0003 ffff", 12, 15),
    (15, "0001 014d", 12, 17),
    (10, "ffff 120004 0003", 5, 10),
];

fn places_in_reply(tally: &mut Tally) {
    let reply = from_hex("11 00 02 00 03 12 00 04 00 01 00 00 12 00 04 00 02 00 05");
    for (at, digits, a, b) in WRONG_REPLIES {
        tally.reply_refused(digits, &changed(&reply, at, digits), (4, a, b));
    }
    for (at, digits) in [
        (3, "03e8 120004 03e7 0000 120004 0000 0000"),
        (3, "0001 120004 0000 03e7 120004 0000 0000"),
        (8, "0002"),
        (8, "0000 014d"),
    ] {
        let good = unfold(&changed(&reply, at, digits), &mut [0; 4]);
        tally.check(digits, good == Ok(4));
    }
}

/// Numbers handed over: K1's with others at some places in layout order, and the field and the
/// number in which they are wrong. A start that is too large for its field is blamed itself. The
/// hold at place 8 is not marked.
const WRONG_NUMBERS: [(&[(usize, u64)], u64, u64); 18] = [
    (&[(0, 0)], 0, 3),
    (&[(0, 65541), (1, 257), (6, 65537)], 0, 3),
    (&[(1, 257), (2, 256), (3, 257)], 5, 8),
    (&[(2, 256), (3, 257)], 5, 9),
    (&[(3, 257)], 5, 10),
    (&[(4, 0x1_0000_0001), (5, 0x1_0000_0001)], 11, 14),
    (&[(5, 0x1_0000_0001), (6, 65537)], 11, 18),
    (&[(6, 65537)], 22, 25),
    (&[(6, 65536), (7, 0)], 22, 25),
    (&[(6, u64::MAX), (7, u64::MAX), (9, 0)], 22, 25),
    (&[(6, 65535), (9, 0)], 22, 27),
    (&[(6, 5), (7, 1)], 22, 27),
    (&[(7, 65539), (12, 0)], 22, 27),
    (&[(7, u64::MAX)], 22, 27),
    (&[(8, u64::MAX), (9, 65537), (10, 0x1_0000_0000)], 22, 29),
    (&[(10, 0x1_0000_0000), (11, 0x1_0000_0000)], 22, 31),
    (&[(11, 0x1_0000_0000), (12, 2)], 22, 35),
    (&[(12, 0x1_0000_0001)], 22, 39),
];

fn places_of_numbers(tally: &mut Tally) {
    for (changes, a, b) in WRONG_NUMBERS {
        let mut numbers = k1_numbers();
        for (place, number) in changes {
            *numbers.number(*place) = *number;
        }
        tally.numbers_refused(&format!("{:?}", changes), &numbers, (4, a, b));
    }
}

/// ASK: places of the first bad one; the table's own refusals come first.
fn questions(tally: &mut Tally) {
    let k1 = k1();
    let bad = [
        ((1, 1, 0, 0), 0),
        ((0, 1, 0, 0), 1),
        ((0, 0, 0, 0), 2),
        ((0, 0, 1001, 1), 2),
        ((0, 0, 1000, 0), 3),
        ((0, 0, 1000, 6), 3),
    ];
    for ((i, j, n, q), place) in bad {
        let expected = Err(refusal_of((9, place, 0)));
        tally.check("ask", margin(&k1, i, j, n, q) == expected);
    }
    tally.check("ask good", margin(&k1, 0, 0, 1000, 5) == Ok(4997));
}

// ---- the program's words ------------------------------------------------

/// One or more digits; beyond 64 bits the highest number, which is asked for in no range.
fn decimals(tally: &mut Tally) {
    let long = "0".repeat(5000);
    for (word, number) in [
        ("0", 0),
        ("000", 0),
        ("007", 7),
        ("10", 10),
        ("9876543210", 9_876_543_210),
        ("18446744073709551614", u64::MAX - 1),
        ("18446744073709551615", u64::MAX),
        ("018446744073709551614", u64::MAX - 1),
        ("18446744073709551616", u64::MAX),
        ("18446744073709551617", u64::MAX),
        ("18446744073709551620", u64::MAX),
        ("20000000000000000000", u64::MAX),
        ("99999999999999999999", u64::MAX),
        ("184467440737095516150", u64::MAX),
        ("100000000000000000000000000001", u64::MAX),
        ("340282366920938463463374607431768211456", u64::MAX),
        ("000000000000000000000000000003", 3),
        (&long, 0),
        (&format!("{}5", long), 5),
        (&"9".repeat(5000), u64::MAX),
    ] {
        tally.check(word, decimal(word.as_bytes()) == Some(number));
    }
    for word in [
        "", " ", "+1", "-1", "-0", " 1", "1 ", "1\n", "\t1", "0x10", "1a", "a", "1_0", "1.0",
        "1,0", "/", ":", "1\0", "\u{663}", "\u{ff13}",
    ] {
        tally.check(word, decimal(word.as_bytes()) == None);
    }
    tally.check("no text", decimal(b"3\xff") == None);
}

/// What the program prints for words about a table.
fn says(tally: &mut Tally, bytes: &[u8], line: &str, output: &str) {
    let words = line.split(' ').map(|word| word.as_bytes().to_vec());
    let all: Vec<Vec<u8>> = words.collect();
    let expected = (String::from(output), String::new());
    tally.check(line, printed(&all, bytes) == expected);
}

/// The answers of the bench tables, a number beyond 64 bits, refusals in their order, and the
/// list where the words are no question.
fn words(tally: &mut Tally) {
    let k7 = from_hex(include_str!("../examples/k07.hex"));
    says(tally, &k7, "boards 2", "yes\n");
    says(tally, &k7, "values 2", "no\n");
    says(tally, &k7, "gap", "gap 3\n");
    says(tally, &k1_held(), "gap", "gap 4\n");
    says(tally, &k1_decided(), "gap", "gap 3\n");
    says(tally, &k1_times(2), "gap", "refused 6 0 1\n");
    says(tally, &[], "gap", "refused 2 0 0\n");
    says(tally, &k7, "margin 0 1 2 2", "margin -2\n");
    says(tally, &k7, "margin 0 1 2 3", "margin 0\n");
    says(tally, &k7, "margin 1 0 1000 6", "margin 6003\n");
    says(
        tally,
        &k1(),
        "boards 18446744073709551617",
        "refused 9 0 0\n",
    );
    says(
        tally,
        &k1(),
        "margin 0 0 0 18446744073709551617",
        "refused 9 2 0\n",
    );
    says(tally, &[], "values 18446744073709551617", "refused 2 0 0\n");
    says(tally, &k1_times(2), "margin 9 9 0 0", "refused 6 0 1\n");
    let reply = from_hex("11 00 02 00 03 12 00 04 00 01 00 00 12 00 04 00 02 00 05");
    says(tally, &reply, "unfold", "op 0 start 1\nop 1 start 17\n");
    says(tally, &reply[..12], "unfold", "op 0 start 1\n");
    says(tally, &reply[..11], "unfold", "refused 1 5 0\n");
    says(tally, &k1(), "unfold", "refused 2 0 0\n");
    let (fold, list) = ((text(&k1()), String::new()), (String::new(), LIST.into()));
    tally.check("no words", printed(&[], &k1()) == fold);
    tally.check("an empty word", printed(&[vec![]], &k1()) == list);
    tally.check("lines", lines_are_as_said());
}

// ---- checks on drawn inputs ---------------------------------------------

/// K1 with a decider cut at every length: SHORT inside a field, ORDER between fields; whole
/// with the decider's field and without it.
fn cuts(tally: &mut Tally) {
    let starts = [0, 5, 11, 22, 43];
    for bytes in generate::all_cuts(&k1_decided()) {
        let length = bytes.len() as u64;
        let field = starts
            .iter()
            .rev()
            .find(|start| **start <= length)
            .copied()
            .unwrap_or(0);
        match (length, field) {
            (43 | 47, _) => tally.check("whole", judge(&bytes).is_ok()),
            (at, start) if at == start => tally.refused("cut", &bytes, (2, at, 0)),
            (_, start) => tally.refused("cut", &bytes, (1, start, 0)),
        }
    }
}

/// "unfolding them gives the dates we began with"; what a table reads as, it is
/// written as.
fn round_trips(tally: &mut Tally, seed: &mut Seed) {
    let table = generate::small(seed);
    let bytes = bytes_of(&table);
    let (mut reply, mut starts) = ([0x77; 240], [0x77; 70]);
    let count = plan(&bytes, &mut reply).unwrap_or(0);
    tally.check("reply length", count == 5 + 7 * table.ops.len());
    tally.check(
        "reply rest",
        reply[count..].iter().all(|byte| *byte == 0x77),
    );
    tally.check(
        "unfold",
        unfold(&reply[..count], &mut starts) == Ok(2 * table.ops.len()),
    );
    let expected = start_bytes(table.ops.iter().map(|op| op.start));
    tally.check("starts", starts[..expected.len()] == expected[..]);
    tally.check("p is right", right(&table, table.len));
    let numbers = numbers_of(&table);
    tally.check("numbers", judge_numbers(&numbers).as_ref() == Ok(&table));
    tally.check("as written", bytes_of_numbers(&numbers) == bytes);
    let decider = None;
    let undecided = bytes_of(&Table { decider, ..table });
    tally.check("without its decider", text(&undecided) == text(&bytes));
}

/// The bytes of numbers, each in as many as it has in the layout; none where one is too large.
fn laid_out(numbers: &[(u64, u32)]) -> Option<Vec<u8>> {
    let mut out = Vec::new();
    for (number, bytes) in numbers {
        if number >> (8 * bytes) != 0 {
            return None;
        }
        push_number(&mut out, *number, *bytes);
    }
    Some(out)
}

/// A field 04 of six numbers, a mark and a hold. With some of them missing it stops before the
/// end of its value.
fn op_laid_out(six: &[u64], two: &[u64]) -> Option<Vec<u8>> {
    if six.len() < 6 || two.len() < 2 {
        return Some(vec![0x04, 0, 18]);
    }
    let is_held = two[0] != 0;
    let hold = if is_held { (two[1], 2) } else { (0, 0) };
    let length = if is_held { 20 } else { 18 };
    laid_out(&[
        (0x04, 1),
        (length, 2),
        (six[0], 2),
        (six[1], 2),
        hold,
        (six[2], 2),
        (six[3], 4),
        (six[4], 4),
        (six[5], 4),
    ])
}

/// All fields 04, up to one with numbers missing; whether there was none of these.
fn ops_laid_out(numbers: &Numbers) -> Option<(Vec<u8>, bool)> {
    let (mut ops, mut holds) = (&numbers.ops[..], &numbers.holds[..]);
    let mut out = Vec::new();
    while !ops.is_empty() || !holds.is_empty() {
        let (six, two) = (&ops[..ops.len().min(6)], &holds[..holds.len().min(2)]);
        out.extend(op_laid_out(six, two)?);
        if six.len() < 6 || two.len() < 2 {
            return Some((out, false));
        }
        (ops, holds) = (&ops[6..], &holds[2..]);
    }
    Some((out, true))
}

/// The layout of numbers that fit their fields, written without judging them; an
/// operation with numbers missing stops before its end, and so does the table.
fn written(numbers: &Numbers) -> Option<Vec<u8>> {
    let words = [&[numbers.first][..], &numbers.follow[..]].concat();
    if words.len() > 16000 {
        return None;
    }
    let mut head = vec![(0x01, 1), (2, 2), (numbers.p, 2), (0x02, 1), (3, 2)];
    head.extend([numbers.boards, numbers.cells, numbers.modes].map(|count| (count, 1)));
    head.extend([(0x03, 1), (4 * words.len() as u64, 2)]);
    head.extend(words.iter().map(|word| (*word, 4)));
    let mut out = laid_out(&head)?;
    let (ops, all) = ops_laid_out(numbers)?;
    out.extend(ops);
    if numbers.mark != 0 && all {
        out.extend(laid_out(&[(0x05, 1), (1, 2), (numbers.decider, 1)])?);
    }
    Some(out)
}

/// "judged as if first written in this layout and then read"
fn as_if_written(tally: &mut Tally, seed: &mut Seed) {
    let numbers = generate::numbers(seed);
    if let Some(bytes) = written(&numbers) {
        tally.check("as if written", judge_numbers(&numbers) == judge(&bytes));
        let (whole, all) = (bytes_of_numbers(&numbers), numbers.is_whole());
        tally.check("whole fields", bytes.starts_with(&whole));
        tally.check("whole table", (bytes == whole) == all);
    }
}

/// The wrong numbers come in layout order: once the blamed one is put right, RANGE blames one
/// behind it.
fn in_layout_order(tally: &mut Tally, seed: &mut Seed) {
    let all = [
        blamed::in_table(&generate::table_bytes(seed)),
        blamed::in_numbers(&generate::numbers(seed)),
        blamed::in_reply(&generate::reply(seed)),
    ];
    for wrong in all {
        let places: Vec<(u64, u64)> = wrong.iter().map(|it| (it.a, it.b)).collect();
        let in_order = places.windows(2).all(|two| two[0] < two[1]);
        tally.check("in layout order", in_order);
    }
}

/// "no answer depends on bytes past 889": a table with more bytes is answered as it is when cut
/// there.
fn no_more_bytes(tally: &mut Tally, seed: &mut Seed) {
    let mut bytes = generate::counted(seed);
    bytes.extend(generate::noise(seed));
    bytes.extend(generate::counted(seed));
    if bytes.len() > 889 {
        tally.check("past 889", judge(&bytes) == judge(&bytes[..889]));
    }
}

/// "no output byte changes" on a refusal, and the rest stays on success.
fn keeps_bytes(tally: &mut Tally, seed: &mut Seed) {
    let length = seed.below(60) as usize;
    let (table, reply) = (generate::table_bytes(seed), generate::reply(seed));
    let mut out = vec![0x33; length];
    let kept = plan(&table, &mut out).unwrap_or(0);
    tally.check("plan keeps", out[kept..].iter().all(|byte| *byte == 0x33));
    let mut out = vec![0x33; length];
    let kept = unfold(&reply, &mut out).unwrap_or(0);
    tally.check("unfold keeps", out[kept..].iter().all(|byte| *byte == 0x33));
}

// ---- another order and other names --------------------------------------

/// Three modes, of which no run reaches mode 2; four boards, of which no operation has board 2. The
/// decider [0,1), in every mode, holds board 0 for four more ticks; [2,5) on board 1 writes in mode 0;
/// [1,2) on board 3 reads that in mode 1; [5,8) on board 0 in mode 2. Its boards fit from 5 on, and
/// its values arrive from 4 on.
const BEFORE_RENAMING: &str = "0100020008 020003040103 030010 00000001 00000003 00000001 00000004 \
    040014 0000 0001 0004 0001 00000000 00000000 00000007 \
    040012 0002 0003 0002 00000000 00000001 00000001 \
    040012 0001 0001 0008 00000001 00000000 00000002 \
    040012 0005 0003 0001 00000000 00000000 00000004 05000100";

/// Its operations are numbered 2, 0, 3, 1 now, its boards 0, 1 and 3 are 5, 0 and 1 of six, and its
/// modes are 1, 2, 0.
const AFTER_RENAMING: &str = "0100020008 020003060103 030010 00000002 00000001 00000006 00000002 \
    040012 0002 0003 0001 00000000 00000001 00000002 \
    040012 0005 0003 0020 00000000 00000000 00000001 \
    040014 0000 0001 0004 0020 00000000 00000000 00000007 \
    040012 0001 0001 0002 00000001 00000000 00000004 05000102";

fn before_renaming() -> Table {
    judge(&from_hex(BEFORE_RENAMING)).expect("it is accepted")
}

fn by_hand() -> Renaming {
    Renaming {
        ops: vec![2, 0, 3, 1],
        boards: vec![Some(5), Some(0), None, Some(1)],
        board_count: 6,
        modes: vec![1, 2, 0],
    }
}

/// The two tables, what both print, and the way back.
fn renamed_by_hand(tally: &mut Tally) {
    let (table, renaming) = (before_renaming(), by_hand());
    let other = renaming.table(&table);
    tally.check("renamed", bytes_of(&other) == from_hex(AFTER_RENAMING));
    tally.check("one to one", renaming.is_one_to_one(&table));
    let rows = [
        "start 0 fst 0",
        "start 2 fst 0",
        "start 1 fst 0",
        "start 0 fst 1",
    ];
    let said = |order: [usize; 4]| {
        let line = |(op, row): (usize, usize)| format!("op {} {}\n", op, rows[row]);
        let lines: String = order.into_iter().enumerate().map(line).collect();
        format!("period 5\n{}", lines)
    };
    tally.check(
        "before",
        text(&from_hex(BEFORE_RENAMING)) == said([0, 1, 2, 3]),
    );
    tally.check(
        "after",
        text(&from_hex(AFTER_RENAMING)) == said([1, 3, 0, 2]),
    );
    let back = Renaming {
        ops: vec![1, 3, 0, 2],
        boards: vec![Some(1), Some(3), None, None, None, Some(0)],
        board_count: 4,
        modes: vec![2, 0, 1],
    };
    tally.check(
        "back",
        renaming.back() == back && back.table(&other) == table,
    );
}

/// A drawn renaming, and then the way back.
fn renamed_and_back(tally: &mut Tally, seed: &mut Seed) {
    let table = generate::small(seed);
    let renaming = drawn_renaming(seed, &table);
    let (other, back) = (renaming.table(&table), renaming.back());
    tally.check("one to one", renaming.is_one_to_one(&table));
    tally.check("accepted", judge(&bytes_of(&other)).as_ref() == Ok(&other));
    tally.check("one to one", back.is_one_to_one(&other));
    tally.check("back", back.table(&other) == table);
}

/// The answers of the planner, as the library gives them.
const PLANNER: Functions = Functions {
    judge: |s| said_of(judge(s).map(|_| 0)),
    judge_numbers: |n| said_of(judge_numbers(n).map(|_| 0)),
    write: |n, out| said_of(write_table(n, out)),
    period: |s| said_of(judge(s).map(|table| period(&table) as usize)),
    gap: planned_gap,
    boards_fit: |s, q| said_of(boards_fit(s, q).map(usize::from)),
    values_arrive: |s, q| said_of(values_arrive(s, q).map(usize::from)),
    plan: |s, out| said_of(plan(s, out)),
    margin: planned_margin,
};

fn planned_gap(s: &mut [u8]) -> Said {
    said_of(gap(s).map(|gap| gap as usize))
}

fn planned_margin(s: &mut [u8], asked: Margin, places: &mut [i32; 3]) -> Said {
    let (i, j, n, q) = asked;
    let answer = margin(s, i, j, n, q).map(|margin| places[1] = margin as i32);
    said_of(answer.map(|_| 0))
}

/// How often a test puts two tables to the functions.
const TIMES: u64 = 5;

/// How many answers differ, of many about two tables.
fn differences(functions: &Functions, table: &Table, other: &Table, renaming: &Renaming) -> u64 {
    let pair = Pair {
        table,
        other,
        renaming,
    };
    let (mut found, mut seed) = (Found::new(0), Seed::new(12));
    for _ in 0..TIMES {
        compare_pair(functions, &pair, &mut seed, &mut found);
    }
    found.differences
}

/// Nothing differs where all is well.
fn renamed_well(tally: &mut Tally, seed: &mut Seed) {
    let table = generate::small(seed);
    let renaming = drawn_renaming(seed, &table);
    let other = renaming.table(&table);
    let differ = differences(&PLANNER, &table, &other, &renaming);
    tally.check("renamed well", differ == 0);
}

/// Faults in the second table, of which the first one is handed over, too.
const BADLY_RENAMED: [(&str, fn(&mut Table, &Table)); 13] = [
    ("two operations in each other's place", |other, _| {
        other.ops.swap(0, 1)
    }),
    ("decider left behind", |other, table| {
        other.decider = table.decider
    }),
    ("turns left behind", |other, table| {
        other.follow = table.follow.clone()
    }),
    ("turns moved and not renamed", |other, _| {
        other.follow = vec![4, 3, 1]
    }),
    ("turns renamed and not moved", |other, _| {
        other.follow = vec![6, 2, 1]
    }),
    ("first modes left behind", |other, table| {
        other.first = table.first
    }),
    ("modes of the operations left behind", |other, table| {
        set_each(other, table, |op, old| op.modes = old.modes)
    }),
    ("modes of one operation left behind", |other, table| {
        other.ops[0].modes = table.ops[1].modes
    }),
    ("another operation's board", |other, _| {
        other.ops[0].boards = other.ops[2].boards
    }),
    ("holds left with the numbers", |other, table| {
        let ops = other.ops.iter_mut().zip(&table.ops);
        ops.for_each(|(op, old)| op.hold = old.hold)
    }),
    ("hold left out", |other, _| other.ops[2].hold = None),
    ("cells left with the numbers", |other, table| {
        let ops = other.ops.iter_mut().zip(&table.ops);
        ops.for_each(|(op, old)| (op.reads, op.writes) = (old.reads, old.writes))
    }),
    ("too few boards", |other, _| other.boards = 5),
];

/// Changes each operation by what it was in the first table.
fn set_each(other: &mut Table, table: &Table, set: fn(&mut Op, &Op)) {
    for (old, new) in table.ops.iter().zip(by_hand().ops) {
        set(&mut other.ops[new as usize], old);
    }
}

/// Faults in the second table are found: a number that was left behind or changed by itself. And
/// nothing is good where nothing was met.
fn renamed_badly(tally: &mut Tally) {
    let (table, renaming) = (before_renaming(), by_hand());
    let other = renaming.table(&table);
    let differ = differences(&PLANNER, &table, &other, &renaming);
    tally.check("renamed well", differ == 0);
    for (name, spoil) in BADLY_RENAMED {
        let mut bad = other.clone();
        spoil(&mut bad, &table);
        let differ = differences(&PLANNER, &table, &bad, &renaming);
        tally.check(name, bad != other && differ > 0);
    }
    tally.check("nothing met", !Found::new(0).is_good());
}

/// Faults in the renaming: two operations, boards or modes with one name, a board in use without a
/// name, a name beyond the count, more boards than there may be.
const NOT_ONE_TO_ONE: [(&str, fn(&mut Renaming)); 8] = [
    ("one place for two operations", |it| it.ops[1] = 2),
    ("one name for two boards", |it| it.boards[1] = Some(5)),
    ("one name for two modes", |it| it.modes[2] = 1),
    ("a name beyond the operations", |it| it.ops[1] = 4),
    ("a name beyond the boards", |it| it.board_count = 5),
    ("a name beyond the modes", |it| it.modes[2] = 3),
    ("no name for a board in use", |it| it.boards[3] = None),
    ("too many boards", |it| it.board_count = 17),
];

/// Each is seen; and of those that still make a table, the answers about it differ.
fn not_one_to_one(tally: &mut Tally) {
    let table = before_renaming();
    for (place, (name, spoil)) in NOT_ONE_TO_ONE.into_iter().enumerate() {
        let mut bad = by_hand();
        spoil(&mut bad);
        tally.check(name, !bad.is_one_to_one(&table));
        if place < 3 {
            let differ = differences(&PLANNER, &table, &bad.table(&table), &bad);
            // one is noted each time for the renaming, whatever the answers
            tally.check(name, differ > TIMES);
        }
    }
}

/// The rows of a reply listed by their starts, whatever their operations.
fn plan_sorted(s: &mut [u8], out: &mut [u8]) -> Said {
    let reply = fold(s).map(|mut reply| {
        reply.rows.sort_by_key(|row| (row.fst, row.folded));
        reply_bytes(&reply)
    });
    said_of(reply.and_then(|reply| put(&reply, out)))
}

/// A buffer that is too short gets as many bytes as it has room for.
fn plan_cut(s: &mut [u8], out: &mut [u8]) -> Said {
    let (said, room) = (said_of(plan(s, out)), out.len());
    let mut reply = [0; LONGEST_REPLY];
    if said.number == 8 && plan(s, &mut reply).is_ok() {
        out.copy_from_slice(&reply[..room]);
    }
    said
}

/// One byte more than the reply has is written where operation 0 decides.
fn plan_long(s: &mut [u8], out: &mut [u8]) -> Said {
    let said = said_of(plan(s, out));
    let decides = judge(s).map_or(false, |table| table.decider == Some(0));
    if let Some(byte) = out.get_mut(said.a as usize).filter(|_| decides) {
        *byte ^= 1;
    }
    said
}

/// The table as it is changed, where it is accepted as it was; it is not judged again.
fn changed_table(s: &[u8], change: fn(&mut Table)) -> Result<Table, Refusal> {
    judge(s).map(|mut table| {
        change(&mut table);
        table
    })
}

/// The period of the table as it is changed.
fn changed_period(s: &[u8], change: fn(&mut Table)) -> Said {
    said_of(changed_table(s, change).map(|table| period(&table) as usize))
}

/// A question at a period about the table as it is changed; what is refused of it as it was stays
/// refused.
fn changed_at(s: &[u8], q: u64, change: fn(&mut Table), ask: fn(&Table, u64) -> bool) -> Said {
    let asked = boards_fit(s, q).and_then(|_| changed_table(s, change));
    said_of(asked.map(|table| usize::from(ask(&table, q))))
}

/// Boards 4 and up are taken from all operations.
fn forget_boards(table: &mut Table) {
    table.ops.iter_mut().for_each(|op| op.boards &= 15);
}

/// The gap of the table as it is changed.
fn changed_gap(s: &[u8], change: fn(&mut Table)) -> Said {
    said_of(changed_table(s, change).map(|table| gaps::gap(&table) as usize))
}

/// Libraries with a fault each: the planner, and one function in the place of its own.
const FAULTY: [(&str, fn(&mut Functions)); 20] = [
    ("rows by their starts", |it| it.plan = plan_sorted),
    ("a short buffer is written to", |it| it.plan = plan_cut),
    ("a byte behind the reply", |it| it.plan = plan_long),
    ("the input is changed", |it| {
        it.plan = |s, out| {
            s[0] ^= 1;
            said_of(plan(&changed(s, 0, "01"), out))
        }
    }),
    ("any decider but 0 is refused", |it| {
        it.judge = |s| match judge(s) {
            Ok(table) if table.decider != Some(0) => said_of(Err(refusal_of((10, 0, 0)))),
            answer => said_of(answer.map(|_| 0)),
        }
    }),
    ("all tables are refused", |it| {
        it.judge = |_| said_of(Err(refusal_of((6, 0, 1))))
    }),
    ("the period goes by the count of boards", |it| {
        it.period = |s| said_of(judge(s).map(|it| period(&it).max(it.boards) as usize))
    }),
    ("mode 0 is always a first mode", |it| {
        it.period = |s| changed_period(s, |table| table.first |= 1)
    }),
    ("every mode follows mode 0", |it| {
        it.period = |s| changed_period(s, |table| table.follow[0] = 7)
    }),
    ("operation 0 holds no board", |it| {
        it.period = |s| changed_period(s, |table| table.ops[0].modes = 0)
    }),
    ("the gap goes by the count of boards", |it| {
        it.gap = |s| said_of(judge(s).map(|it| gaps::gap(&it).max(it.boards + 2) as usize))
    }),
    ("mode 0 is always a first mode, for the gap", |it| {
        it.gap = |s| changed_gap(s, |table| table.first |= 1)
    }),
    ("every mode follows mode 0, for the gap", |it| {
        it.gap = |s| changed_gap(s, |table| table.follow[0] = 7)
    }),
    ("operation 0 holds no board, for the gap", |it| {
        it.gap = |s| changed_gap(s, |table| table.ops[0].modes = 0)
    }),
    ("the gap changes its input", |it| {
        it.gap = |s| {
            let said = planned_gap(s);
            s[0] ^= 1;
            said
        }
    }),
    ("boards are forgotten from 4 on", |it| {
        it.boards_fit = |s, q| changed_at(s, q, forget_boards, walks::boards_fit)
    }),
    ("operation 3 reads nothing", |it| {
        it.values_arrive =
            |s, q| changed_at(s, q, |table| table.ops[3].reads = 0, walks::values_arrive)
    }),
    (
        "a period out of range is refused with the count of boards",
        |it| {
            it.boards_fit = |s, q| match boards_fit(s, q) {
                Err(refusal) if refusal.number == 9 => {
                    said_of(Err(refusal_of((9, u64::from(s[8]), 0))))
                }
                answer => said_of(answer.map(usize::from)),
            }
        },
    ),
    ("margins of the lower number first", |it| {
        it.margin = |s, (i, j, n, q), places| planned_margin(s, (i.min(j), i.max(j), n, q), places)
    }),
    ("a refused margin is set to 0", |it| {
        it.margin = |s, asked, places| {
            let said = planned_margin(s, asked, places);
            places[1] *= i32::from(said.number == 0);
            said
        }
    }),
];

/// Each fault of a library is found.
fn faulty_libraries(tally: &mut Tally) {
    let (table, renaming) = (before_renaming(), by_hand());
    let other = renaming.table(&table);
    for (name, spoil) in FAULTY {
        let mut functions = PLANNER;
        spoil(&mut functions);
        let differ = differences(&functions, &table, &other, &renaming);
        tally.check(name, differ > 0);
    }
}

// ---- cycles started by a button -----------------------------------------

/// The bench tables, and their gaps.
const BENCH_GAPS: [(&str, u64); 9] = [
    (K1, 3),
    (include_str!("../examples/k02.hex"), 2),
    (include_str!("../examples/k03.hex"), 4),
    (include_str!("../examples/k04.hex"), 4),
    (include_str!("../examples/k05.hex"), 2),
    (include_str!("../examples/k06.hex"), 4),
    (include_str!("../examples/k07.hex"), 3),
    (include_str!("../examples/k08.hex"), 3),
    (include_str!("../examples/k09.hex"), 1),
];

/// A table of p ticks and so many modes in a ring, the first of them 0, with steps of one tick on one board: where each
/// starts, and its modes.
fn ring_of(p: u64, modes: u64, ticks: &[(u64, u64)]) -> Table {
    let op = |(start, modes): &(u64, u64)| Op {
        start: *start,
        dur: 1,
        hold: None,
        boards: 1,
        reads: 0,
        writes: 0,
        modes: *modes,
    };
    Table {
        len: p,
        boards: 1,
        cells: 0,
        modes,
        first: 1,
        follow: (0..modes).map(|mode| 1 << ((mode + 1) % modes)).collect(),
        ops: ticks.iter().map(op).collect(),
        decider: None,
    }
}

/// Periods and gaps by hand. What is wanted again n turns later, from the last tick of p to the first, asks for p / n,
/// rounded up. A tick at the start and one at the end: any delay of p - 1 is wrong, by one turn. In modes
/// that alternate the first of two steps is met an odd number of turns after the second, so that at a period of 1 it is
/// not met 2 ticks later, and by a button it is. In a ring of three the board is wanted again two turns later, 3 ticks
/// after: no two equal gaps are that, but 1 and 2 are; and with equal gaps every period is right.
fn gaps_by_hand(tally: &mut Tally) {
    for (number, (text, due)) in (1..).zip(BENCH_GAPS) {
        tally.check(
            &format!("gap of K{}", number),
            gap(&from_hex(text)) == Ok(due),
        );
    }
    for (p, turns) in [(1000, 1), (1000, 3), (999, 32), (97, 32), (2, 5)] {
        for boards in [true, false] {
            let table = generate::ring_apart(p, turns, boards);
            tally.check(
                "ring, accepted",
                judge(&bytes_of(&table)).as_ref() == Ok(&table),
            );
            tally.check("ring, gap", gaps::gap(&table) == (p + turns - 1) / turns);
        }
    }
    for (table, due) in [
        (ring_of(1000, 1, &[(0, 1), (999, 1)]), (2, 1000)),
        (ring_of(3, 2, &[(0, 1), (2, 2)]), (1, 3)),
        (ring_of(4, 3, &[(3, 1), (0, 4)]), (1, 2)),
        (ring_of(4, 3, &[(3, 2), (0, 1)]), (1, 2)),
        (ring_of(4, 3, &[(3, 1), (0, 2)]), (1, 4)),
        (ring_of(5, 1, &[(0, 1)]), (1, 1)),
    ] {
        let said = (period(&table), gaps::gap(&table));
        tally.check(&format!("period and gap {:?}", due), said == due);
    }
}

/// Runs of K4, which wants its board at the first and at the last of 4 ticks, at dates of their own: two starts may not
/// be 3 ticks apart. And a turn from cold to warm, where the temperature is there 100 ticks after the cold start.
fn runs_at_dates(tally: &mut Tally) {
    let k4 = judge(&from_hex(include_str!("../examples/k04.hex"))).expect("it is accepted");
    for (starts, good) in [
        (&[0, 1, 2][..], true),
        (&[0, 1, 3], false),
        (&[0, 2, 3], false),
        (&[0, 2, 4], true),
        (&[0, 2, 5], false),
        (&[0, 3, 6], false),
        (&[0, 4, 8], true),
        (&[0, 4, 7], false),
        (&[0, 9, 90], true),
    ] {
        let run = Run::new(&k4, &[0; 3]);
        tally.check("boards at dates", run.boards_fit(starts) == good);
    }
    let every = from_hex(include_str!("../examples/analyzer-cold-to-warm.hex"));
    let table = judge(&every).expect("the example is accepted");
    for (starts, good) in [
        (&[0, 200, 300][..], true),
        (&[0, 200, 299], false),
        (&[0, 90, 190], true),
        (&[0, 900, 999], false),
    ] {
        let run = Run::new(&table, &[COLD, COLD, WARM]);
        tally.check("values at dates", run.values_arrive(starts) == good);
    }
}

/// Starts that are a period apart are as right as that period.
fn runs_at_periods(tally: &mut Tally, seed: &mut Seed) {
    let table = generate::tiny(seed);
    let mut modes = vec![laid::drawn_member(seed, table.first)];
    for cycle in 0..6 {
        modes.push(laid::drawn_member(
            seed,
            table.follow[modes[cycle] as usize],
        ));
    }
    let run = Run::new(&table, &modes);
    for q in 1..=table.len {
        let starts: Vec<u64> = (0..7).map(|cycle| cycle * q).collect();
        let same = run.boards_fit(&starts[..]) == run.boards_fit(q)
            && run.values_arrive(&starts[..]) == run.values_arrive(q);
        tally.check("dates a period apart", same);
    }
}

/// From the longest wrong delay of each distance, none of which is left out: the smallest gap with which n·gap is above
/// it for each n. It is not below the period.
fn gap_by_delays(tally: &mut Tally, seed: &mut Seed) {
    let table = generate::small(seed);
    let delays = gaps::longest_wrong(&table, table.len as usize);
    let serves = |gap: &u64| (1..).zip(&delays).all(|(n, delay)| n * gap > *delay);
    let smallest = (1..=table.len).find(serves);
    tally.check("gap by delays", smallest == Some(gaps::gap(&table)));
    tally.check("gap from the period on", smallest >= Some(period(&table)));
}

/// The distances with their longest wrong delays.
fn delays_of(table: &Table) -> impl Iterator<Item = (u64, u64)> {
    let delays = gaps::longest_wrong(table, table.len as usize);
    (1..).zip(delays)
}

/// A quotient rounded down in the place of one rounded up.
fn rounded_down(table: &Table) -> u64 {
    let wrong = delays_of(table).filter(|(_, delay)| *delay > 0);
    let asked = wrong.map(|(n, delay)| (delay + 1) / n);
    asked.max().unwrap_or(0).max(1)
}

/// What the largest distance asks for at which anything is wrong, in the place of the smallest.
fn largest_distance(table: &Table) -> u64 {
    let wrong = delays_of(table).filter(|(n, delay)| delay >= n);
    wrong.last().map_or(1, |(n, delay)| delay / n + 1)
}

/// The smallest period from which on all are right, as if gaps were always equal.
fn all_right_from(table: &Table) -> u64 {
    let right = (1..=table.len).rev().take_while(|q| right(table, *q));
    right.last().expect("p is right")
}

/// An answer by a number for each accepted table.
fn said_by(s: &[u8], gap: fn(&Table) -> u64) -> Said {
    said_of(judge(s).map(|table| gap(&table) as usize))
}

/// The gap of the table as if its steps lasted until their boards are let go.
fn longer_steps(table: &mut Table) {
    for op in &mut table.ops {
        op.dur += op.hold.take().unwrap_or(0);
    }
}

/// Gaps with a fault each.
const FAULTY_GAPS: [(&str, Ask); 17] = [
    ("the period for the gap", |s| said_by(s, period)),
    ("all right from it on, at equal gaps", |s| {
        said_by(s, all_right_from)
    }),
    ("a quotient rounded down", |s| said_by(s, rounded_down)),
    ("the end for the time boards are let go", |s| {
        said_by(s, |table| gaps::gap(&without_holds(table)))
    }),
    ("the time boards are let go for the end", |s| {
        changed_gap(s, longer_steps)
    }),
    ("values left out", |s| {
        changed_gap(s, |table| table.ops.iter_mut().for_each(|op| op.reads = 0))
    }),
    ("boards left out", |s| {
        changed_gap(s, |table| {
            let ops = table.ops.iter_mut().enumerate();
            ops.for_each(|(place, op)| op.boards = 1 << place)
        })
    }),
    ("the largest distance for the smallest", |s| {
        said_by(s, largest_distance)
    }),
    ("cycles one apart only", |s| {
        said_by(s, |table| gaps::longest_wrong(table, 1)[0] + 1)
    }),
    ("unreached modes counted", |s| {
        changed_gap(s, |table| table.first = (1 << table.modes) - 1)
    }),
    ("first modes only", |s| {
        changed_gap(s, |table| {
            table.follow = (0..table.modes).map(|mode| 1 << mode).collect()
        })
    }),
    ("one more", |s| {
        said_by(s, |table| table.len.min(gaps::gap(table) + 1))
    }),
    ("one less", |s| {
        said_by(s, |table| gaps::gap(table).max(2) - 1)
    }),
    ("always p", |s| said_by(s, |table| table.len)),
    ("always 1", |s| said_by(s, |_| 1)),
    ("always 0", |s| said_by(s, |_| 0)),
    ("tables refused", |_| said_of(Err(refusal_of((10, 0, 0))))),
];

/// How many tables are drawn at most until a fault is told.
const MOST_DRAWN: u64 = 1000;

/// Compares the gap of a drawn table and its runs.
fn pressed_once(ask: Ask, seed: &mut Seed, found: &mut pressed::Found) {
    let table = generate::tiny(seed);
    let enough = enough_cycles(&table);
    let shown = Shown::by_runs(&table, enough..=enough);
    pressed::compare_table(ask, seed, &shown, found);
}

/// Each fault is told by the planner, and by runs that are laid out.
fn faulty_gaps(tally: &mut Tally) {
    for (name, ask) in FAULTY_GAPS {
        let (mut seed, mut found) = (Seed::new(6), pressed::Found::new(0));
        let mut drawn = 0;
        while drawn < MOST_DRAWN && (found.by_planner == 0 || found.by_runs == 0) {
            pressed_once(ask, &mut seed, &mut found);
            drawn += 1;
        }
        tally.check(&format!("{}, by the planner", name), found.by_planner > 0);
        tally.check(&format!("{}, by runs", name), found.by_runs > 0);
    }
    tally.check("nothing pressed", !pressed::Found::new(0).is_good());
}

/// Nothing differs where all is well.
fn pressed_well(tally: &mut Tally, seed: &mut Seed) {
    let mut found = pressed::Found::new(5);
    pressed_once(planned_gap, seed, &mut found);
    tally.check("pressed well", found.differences() == 0);
}

// ---- what is measured with ----------------------------------------------

/// A table is accepted and has these counts: length, boards, cells, modes, operations.
fn check_counts(tally: &mut Tally, name: &str, table: &Table, counts: [u64; 5]) {
    let ops = table.ops.len() as u64;
    let has = [table.len, table.boards, table.cells, table.modes, ops];
    tally.check(name, has == counts);
    tally.check(name, table.ops.iter().all(|op| op.hold.is_none()));
    tally.check(name, judge(&bytes_of(table)).as_ref() == Ok(table));
}

/// Each mode is followed by the next one only.
fn is_ring(table: &Table) -> bool {
    let mut follow = table.follow.iter().enumerate();
    follow.all(|(mode, set)| *set == 1 << ((mode + 1) % 32))
}

/// No operation reads or writes a cell.
fn uses_no_cell(table: &Table) -> bool {
    table.ops.iter().all(|op| op.reads | op.writes == 0)
}

/// Both families over a ring: the drawn one has each operation in one tick and one mode, and some in either half.
fn measured_rings(tally: &mut Tally, seed: &mut Seed) {
    let (drawn, placed) = (generate::ring_drawn(seed), generate::ring_placed(seed));
    check_counts(tally, "ring, drawn", &drawn, [1000, 16, 32, 32, 32]);
    check_counts(tally, "ring, placed", &placed, [1000, 1, 0, 32, 32]);
    for table in [&drawn, &placed] {
        tally.check("a ring", is_ring(table) && table.first.count_ones() == 1);
        tally.check("one board", table.ops.iter().all(|op| op.boards == 1));
        tally.check("no cell of the ring", uses_no_cell(table));
        tally.check("a small period", period(table) <= 40);
    }
    let ops = &drawn.ops;
    tally.check("one tick", ops.iter().all(|op| op.dur == 1));
    tally.check("one mode", ops.iter().all(|op| op.modes.count_ones() == 1));
    let early = ops.iter().filter(|op| op.start < 500).count();
    tally.check("in either half", early > 0 && early < ops.len());
    tally.check("short steps", placed.ops.iter().all(|op| op.dur <= 2));
}

/// The largest have every count at its highest. Where nothing is read or written the tables are these in all else; the
/// others have no cells.
fn measured_boards(tally: &mut Tally, seed: &mut Seed) {
    let largest = generate::largest(&mut seed.clone());
    check_counts(tally, "largest", &largest, [1000, 16, 32, 32, 32]);
    tally.check("cells are used", !uses_no_cell(&largest));
    let table = generate::nothing_read_or_written(seed);
    check_counts(tally, "unused cells", &table, [1000, 16, 32, 32, 32]);
    let turns = table.first == largest.first && table.follow == largest.follow;
    let same = table.ops.iter().zip(&largest.ops).all(|(one, two)| {
        (one.start, one.dur, one.boards, one.modes) == (two.start, two.dur, two.boards, two.modes)
    });
    tally.check("the same in all else", turns && same);
    tally.check("nothing read or written", uses_no_cell(&table));
    let table = generate::no_cells(seed);
    check_counts(tally, "no cells", &table, [1000, 16, 0, 32, 32]);
}

/// Where all is near, both the period and the gap are 1 or 2, and cells are used.
fn measured_near(tally: &mut Tally, seed: &mut Seed) {
    let table = generate::near(seed);
    check_counts(tally, "near", &table, [1000, 16, 32, 32, 32]);
    tally.check("near cells", !uses_no_cell(&table));
    tally.check("near period", period(&table) <= 2);
    tally.check("near gap", gaps::gap(&table) <= 2);
}

/// The tables for growth have the size that is asked for.
fn measured_sizes(tally: &mut Tally, seed: &mut Seed) {
    for (p, ops, modes) in [(125, 32, 32), (1000, 4, 32), (1000, 32, 1)] {
        let table = generate::sized(seed, p, ops, modes);
        check_counts(tally, "sized", &table, [p, 16, 32, modes, ops]);
        let longest = table.ops.iter().map(|op| op.dur).max();
        tally.check("durations in proportion", longest <= Some(200 * p / 1000));
    }
}

fn times_of(seconds: &[f64]) -> Times {
    let mut times = Times::default();
    seconds.iter().for_each(|time| times.push(*time));
    times
}

/// Goes on until the processor has worked so many seconds for it.
fn work(seconds: f64) {
    let begin = worked();
    while worked() - begin < seconds {}
}

/// Calls that take so many seconds each, the first of them a quarter: how many were made, the answer and the time.
fn timed_work(each: f64) -> (u64, u64, f64) {
    let mut calls = 0;
    let (answer, seconds) = timed(|| {
        calls += 1;
        work(if calls == 1 { each / 4.0 } else { each });
        calls
    });
    (calls, answer, seconds)
}

/// The time is that of one call: not less, though the first one takes less, and not that of all calls of a round. Three
/// times, since whatever comes between makes the first call longer, and the rounds then have fewer calls.
fn timing(tally: &mut Tally) {
    let each = 20e-6;
    let mut most = 0;
    for _ in 0..3 {
        let (calls, answer, seconds) = timed_work(each);
        tally.check("the last answer", answer == calls);
        tally.check("the first call is not counted", seconds >= each);
        tally.check("the time of one call", seconds < 5.0 * each);
        most = most.max(calls);
    }
    tally.check("many calls", most > u64::from(10 * ROUNDS));
}

/// Mean, median of odd and of even counts, worst; how times are printed.
fn times(tally: &mut Tally) {
    let (odd, even) = (times_of(&[3.0, 8.0, 1.0]), times_of(&[3.0, 8.0, 1.0, 4.0]));
    tally.check("mean", odd.mean() == 4.0 && even.mean() == 4.0);
    tally.check("median", odd.median() == 3.0 && even.median() == 3.5);
    tally.check("median of one", times_of(&[7.0]).median() == 7.0);
    tally.check("worst", odd.worst() == 8.0 && even.worst() == 8.0);
    let ratio = even.least_ratio(&times_of(&[1.0, 4.0, 1.0, 8.0]));
    tally.check("least ratio", ratio == 0.5);
    let ratio = even.most_ratio(&times_of(&[1.0, 4.0, 1.0, 8.0]));
    tally.check("most ratio", ratio == 3.0);
    for (seconds, said) in [
        (0.000_000_25, "0.25 µs"),
        (0.000_023_44, "23.4 µs"),
        (0.000_5, "500 µs"),
        (0.019_12, "19.1 ms"),
        (2.5, "2500 ms"),
    ] {
        tally.check(said, readable(seconds) == said);
    }
}

/// The picture has a mark for each time, beside those that name them; text in it is no tag.
fn pictures(tally: &mut Tally) {
    let point = |size, library, simple| Point {
        size,
        library,
        simple,
    };
    let points = vec![point(1, 2e-6, 3e-4), point(8, 4e-6, 0.02)];
    let name = "sizes";
    let text = svg(&[Panel { name, points }], &[String::from("1 < 2 & 3")]);
    tally.check("round marks", text.matches("<circle").count() == 1 + 2);
    tally.check("escaped", text.contains(">1 &lt; 2 &amp; 3<"));
    tally.check("also reads", text.contains("also reads and judges"));
    for part in ["1 µs", "100 ms", "× 150", "sizes"] {
        tally.check(part, text.contains(&format!(">{}<", part)));
    }
    tally.check(
        "ends",
        text.starts_with("<svg ") && text.ends_with("</svg>\n"),
    );
    tally.check("tags", escaped("<a>&") == "&lt;a&gt;&amp;");
    let ticks = [-7, -6, -4, -3, -1, 0, 1].map(tick);
    let said = ["0.1 µs", "1 µs", "100 µs", "1 ms", "100 ms", "1 s", "10 s"];
    tally.check("ticks", ticks == said);
}

/// With little stack the library answers as everywhere.
fn little_stack(tally: &mut Tally) {
    tally.check("little stack", stack::reserve_serves());
}

/// The checks that draw nothing.
const FIXED: [fn(&mut Tally); 48] = [
    hexadecimal,
    bench_k1,
    bench_answers,
    margins,
    named,
    largest_example,
    untyped_turn,
    points_of_order,
    points_of_size,
    points_of_pairs,
    points_of_reach,
    points_of_length,
    points_of_numbers,
    points_of_large_numbers,
    points_of_decider_field,
    points_behind_decider,
    points_of_early,
    points_after_early,
    points_of_marks,
    points_of_marked_numbers,
    decider_in_runs,
    held_bench,
    held_values,
    places_in_held,
    sizes_of_ops,
    held_pairs,
    held_early,
    held_longest,
    points_of_hold_marks,
    points_of_hold_counts,
    places_in_head,
    places_in_op,
    places_in_reply,
    places_of_numbers,
    questions,
    decimals,
    words,
    cuts,
    renamed_by_hand,
    renamed_badly,
    not_one_to_one,
    faulty_libraries,
    gaps_by_hand,
    runs_at_dates,
    faulty_gaps,
    timing,
    times,
    pictures,
];

/// The checks on drawn inputs.
fn drawn(tally: &mut Tally, seed: &mut Seed) {
    for _ in 0..2000 {
        round_trips(tally, seed);
        as_if_written(tally, seed);
        in_layout_order(tally, seed);
        keeps_bytes(tally, seed);
        no_more_bytes(tally, seed);
        renamed_and_back(tally, seed);
        runs_at_periods(tally, seed);
        gap_by_delays(tally, seed);
    }
    for _ in 0..50 {
        within_sizes(tally, seed);
        renamed_well(tally, seed);
        pressed_well(tally, seed);
    }
    for _ in 0..5 {
        measured_rings(tally, seed);
        measured_boards(tally, seed);
        measured_near(tally, seed);
        measured_sizes(tally, seed);
    }
}

/// All checks.
fn selftest() -> Tally {
    let mut tally = Tally {
        passed: 0,
        failed: 0,
    };
    for part in FIXED {
        part(&mut tally);
    }
    drawn(&mut tally, &mut Seed::new(20));
    // last, since an emulator is slower once a thread was started
    little_stack(&mut tally);
    tally
}

/// True where no check failed.
pub fn selftest_command() -> bool {
    let tally = selftest();
    println!("{} passed, {} failed", tally.passed, tally.failed);
    tally.failed == 0
}
