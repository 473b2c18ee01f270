//! The smallest stack on which each function of the library answers.
//!
//! A call that runs out of stack ends the process, so each try is a process of its own: `stack` starts the comparison
//! again with the words `on-stack NAME BYTES`. That starts a thread, closes the lower part of the thread's stack, and
//! calls the function so that BYTES are left above the closed part. It serves where the process lives on and every
//! answer is the one that the library gives with the main thread's stack.
//!
//! BYTES is what lies below the caller's stack pointer when it calls: the return address, and all that the function and
//! those below it use, down to the lowest byte that they touch, in steps of 16. Arguments that do not fit into registers
//! (3 of margin, 9 of judge_numbers, 11 of write, 8 bytes each) lie above, in the caller's frame, and are not counted. An
//! emulator has its own stack: the library's code runs on the thread's, as on the machine.
//!
//! To add a function: its name in NAMES, and how it is called in `with_room`, `address_of` and `arguments`.

use crate::answers::LONGEST_TABLE;
use crate::generate::{self, Seed};
use crate::judge::{bytes_of, numbers_of, Numbers, Op, Table};
use crate::library::{self, c, Said};
use crate::options;
use crate::speed::hard_table;
use std::arch::{asm, global_asm};
use std::io::Write;
use std::process::{Command, Stdio};

/// What is measured, in the order in which it is printed.
const NAMES: [&str; 11] = [
    "plan",
    "fold",
    "period",
    "gap",
    "boards_fit",
    "values_arrive",
    "margin",
    "judge",
    "unfold",
    "judge_numbers",
    "write",
];

/// Sizes are multiples of this, since the stack pointer is one at each call.
const STEP: usize = 16;

/// The largest size that is tried, STEP times a power of two. It has to serve.
const MOST: usize = 64 * 1024;

/// The bytes of stack that include/trevozhil.h says to reserve, and how many of them are left to others: to memcpy and
/// memset, which another C library has otherwise, and to a loader that looks them up at the first call and may keep
/// every register on the stack meanwhile. Here they are looked up before.
pub const RESERVE: usize = 16 * 1024;
const OTHERS: usize = 4 * 1024;

/// How many bytes of a thread's stack are closed. Every frame is smaller, so that no call gets across.
const CLOSED: usize = 1 << 20;

// ---- the measure's own check --------------------------------------------

/// A function that uses 1008 bytes: 1000 of its own, the lowest of which it touches, and 8 of the return address.
const KNOWN: (&str, usize) = ("known", 1008);

global_asm!(
    ".globl compare_known",
    "compare_known:",
    "sub rsp, 1000",
    "mov byte ptr [rsp], 0",
    "add rsp, 1000",
    "xor eax, eax",
    "ret",
);

extern "C" {
    fn compare_known() -> u32;
}

/// It says 0, and leaves a and b as they were.
const KNOWN_SAID: Said = Said {
    number: 0,
    a: 0,
    b: 0,
};

// ---- a call with little stack -------------------------------------------

extern "C" {
    fn mprotect(address: *mut u8, length: usize, protection: i32) -> i32;
}

/// No touch, and every touch but running.
const SHUT: i32 = 0;
const OPEN: i32 = 3;

/// Shuts or opens what lies below an address.
fn protect_below(low: usize, protection: i32) {
    let failed = unsafe { mprotect((low - CLOSED) as *mut u8, CLOSED, protection) };
    assert!(failed == 0, "the stack cannot be shut or opened");
}

/// Some address of this thread's stack with at least CLOSED bytes above it that nobody uses.
fn far_below() -> usize {
    let here = 0_u8;
    (&here as *const u8 as usize / CLOSED - 1) * CLOSED
}

/// Calls a function of C with the stack pointer at `top`: the first six arguments are in registers, the others lie from
/// `top` up.
unsafe fn call_at(top: usize, function: usize, args: &[usize]) -> u32 {
    let mut first = [0; 6];
    for (place, arg) in args.iter().enumerate() {
        match first.get_mut(place) {
            Some(register) => *register = *arg,
            None => (top as *mut usize).add(place - 6).write_volatile(*arg),
        }
    }
    let number;
    asm!(
        "mov r12, rsp",
        "mov rsp, {top}",
        "call {function}",
        "mov rsp, r12",
        top = in(reg) top,
        function = in(reg) function,
        in("rdi") first[0],
        in("rsi") first[1],
        in("rdx") first[2],
        in("rcx") first[3],
        in("r8") first[4],
        in("r9") first[5],
        lateout("eax") number,
        out("r12") _,
        clobber_abi("C"),
    );
    number
}

// ---- what is asked ------------------------------------------------------

/// What a function is asked about: the bytes of a table or of a reply, the table's numbers, a period.
struct Asked {
    bytes: Vec<u8>,
    numbers: Numbers,
    q: u64,
}

/// What a call tells, and the bytes that it may write.
type Answer = (Said, Vec<u8>);

/// Bytes that may be written, enough for every answer.
fn memory() -> Vec<u8> {
    vec![0; LONGEST_TABLE]
}

/// The bytes of the reply to a table.
fn reply_to(mut bytes: Vec<u8>) -> Vec<u8> {
    let mut reply = memory();
    let said = library::plan(&mut bytes, &mut reply);
    reply.truncate(said.a as usize);
    reply
}

/// What a function is asked about a table. Boards and values are asked about at the period, at 1, and halfway.
fn asked_of(name: &str, table: &Table) -> Vec<Asked> {
    let mut bytes = bytes_of(table);
    let periods = match name {
        "boards_fit" | "values_arrive" => {
            let q = library::period(&mut bytes).a;
            vec![q, 1, (1 + q) / 2]
        }
        _ => vec![1],
    };
    if name == "unfold" {
        bytes = reply_to(bytes);
    }
    let ask = |q| Asked {
        bytes: bytes.clone(),
        numbers: numbers_of(table),
        q,
    };
    periods.into_iter().map(ask).collect()
}

/// The operations that the margin is asked about, and their distance.
const MARGIN: [u64; 3] = [0, 1, 1];

/// The answer on the stack of whoever calls this.
fn with_room(name: &str, asked: &mut Asked) -> Answer {
    let (mut out, mut places) = (memory(), [0; 3]);
    let (bytes, numbers, q) = (&mut asked.bytes, &mut asked.numbers, asked.q);
    let [i, j, n] = MARGIN;
    let said = match name {
        "plan" => library::plan(bytes, &mut out),
        "fold" => library::fold(bytes, &mut out),
        "period" => library::period(bytes),
        "gap" => library::gap(bytes),
        "boards_fit" => library::boards_fit(bytes, q),
        "values_arrive" => library::values_arrive(bytes, q),
        "margin" => library::margin(bytes, (i, j, n, q), &mut places),
        "judge" => library::judge(bytes),
        "unfold" => library::unfold(bytes, &mut out),
        "judge_numbers" => library::judge_numbers(numbers),
        "write" => library::write(numbers, &mut out),
        "known" => KNOWN_SAID,
        _ => unreachable!("{}", name),
    };
    if name == "margin" {
        out[..4].copy_from_slice(&places[1].to_le_bytes());
    }
    (said, out)
}

fn address_of(name: &str) -> usize {
    match name {
        "plan" => c::trevozhil_plan as *const () as usize,
        "fold" => c::trevozhil_fold as *const () as usize,
        "period" => c::trevozhil_period as *const () as usize,
        "gap" => c::trevozhil_gap as *const () as usize,
        "boards_fit" => c::trevozhil_boards_fit as *const () as usize,
        "values_arrive" => c::trevozhil_values_arrive as *const () as usize,
        "margin" => c::trevozhil_margin as *const () as usize,
        "judge" => c::trevozhil_judge as *const () as usize,
        "unfold" => c::trevozhil_unfold as *const () as usize,
        "judge_numbers" => c::trevozhil_judge_numbers as *const () as usize,
        "write" => c::trevozhil_write as *const () as usize,
        "known" => compare_known as *const () as usize,
        _ => unreachable!("{}", name),
    }
}

/// What a function takes before a and b, as the header says. What it writes goes to `out`.
fn arguments(name: &str, asked: &Asked, out: [usize; 2]) -> Vec<usize> {
    let (bytes, n, q) = (&asked.bytes, &asked.numbers, asked.q as usize);
    let table = [bytes.as_ptr() as usize, bytes.len()];
    let counts = [n.p, n.boards, n.cells, n.modes, n.first].map(|number| number as usize);
    let follow = [n.follow.as_ptr() as usize, n.follow.len()];
    let ops = [n.ops.as_ptr() as usize, n.ops.len()];
    let holds = [n.holds.as_ptr() as usize, n.holds.len()];
    let decider = [n.mark, n.decider].map(|number| number as usize);
    let margin = MARGIN.map(|number| number as usize);
    match name {
        "plan" | "fold" | "unfold" => [table, out].concat(),
        "boards_fit" | "values_arrive" => [&table[..], &[q]].concat(),
        "margin" => [&table[..], &margin, &[q], &out[..1]].concat(),
        "judge_numbers" => [&counts[..], &follow, &ops, &holds, &decider].concat(),
        "write" => [&counts[..], &follow, &ops, &holds, &decider, &out].concat(),
        "period" | "gap" | "judge" | "known" => table.to_vec(),
        _ => unreachable!("{}", name),
    }
}

/// The answer with the stack pointer at `top`.
fn with_little(name: &str, asked: &Asked, top: usize) -> Answer {
    let (mut out, mut figures) = (memory(), [0_u64; 2]);
    let lent = [out.as_mut_ptr() as usize, out.len()];
    let a = figures.as_mut_ptr();
    let mut args = arguments(name, asked, lent);
    args.extend([a as usize, a.wrapping_add(1) as usize]);
    // each address goes with its length, and what is there lives until the end of this function
    let number = unsafe { call_at(top, address_of(name), &args) };
    let [a, b] = figures;
    (Said { number, a, b }, out)
}

// ---- one try ------------------------------------------------------------

/// Two steps of one tick on two boards, the first of which decides the mode. Cycles may start a tick apart, so that
/// boards are looked at over every distance.
fn near_table() -> Table {
    let step = |at| Op {
        start: at,
        dur: 1,
        hold: None,
        boards: 1 << at,
        reads: 0,
        writes: 0,
        modes: 1,
    };
    Table {
        len: 1000,
        boards: 2,
        cells: 0,
        modes: 1,
        first: 1,
        follow: vec![1],
        ops: vec![step(0), step(1)],
        decider: Some(0),
    }
}

/// Drawn largest tables, every second one with a decider, the one in which every period below p is wrong, and the one
/// with the smallest period; and half as many longest ones, in which each operation has a hold.
fn tables(count: u64, mut seed: Seed) -> Vec<Table> {
    let mut held = seed.clone();
    let drawn = |turn| match (turn % 2, generate::largest(&mut seed)) {
        (0, table) => table,
        (_, table) => generate::decided(&mut seed, table),
    };
    let drawn = (0..count).map(drawn);
    let held = (0..(count + 1) / 2).map(|_| generate::longest_held(&mut held));
    drawn
        .chain([hard_table(), near_table()])
        .chain(held)
        .collect()
}

/// The answers on a thread with so many bytes of stack for each call.
fn answers_on(name: &str, bytes: usize, asked: &[Asked]) -> Vec<Answer> {
    let low = far_below();
    protect_below(low, SHUT);
    let answers = asked
        .iter()
        .map(|asked| with_little(name, asked, low + bytes))
        .collect();
    protect_below(low, OPEN);
    answers
}

/// Each table is accepted with so many bytes of stack, and every answer is the one with room.
fn serves(name: &'static str, bytes: usize, tables: &[Table]) -> bool {
    let asked = tables.iter().flat_map(|table| asked_of(name, table));
    let mut asked: Vec<Asked> = asked.collect();
    let thread = std::thread::Builder::new().stack_size(4 * CLOSED);
    let answers = std::thread::scope(|scope| {
        let work = || answers_on(name, bytes, &asked);
        let thread = thread.spawn_scoped(scope, work).expect("a thread");
        thread.join().expect("answers")
    });
    asked
        .iter_mut()
        .zip(answers)
        .all(|(asked, answer)| answer.0.number == 0 && with_room(name, asked) == answer)
}

/// Each function serves with what the header says to reserve, less what is left to others. One that needs more ends the
/// process, so its name is printed first.
pub fn reserve_serves() -> bool {
    let bytes = RESERVE - OTHERS;
    print!("with {} bytes of stack:", bytes);
    let tables = tables(2, Seed::new(1));
    let mut good = true;
    for name in NAMES {
        print!(" {}", name);
        std::io::stdout().flush().expect("standard output");
        good &= serves(name, bytes, &tables);
    }
    println!();
    good
}

/// Each table has the same period with just what the header says to reserve; where it needs more the process ends. That
/// is not left to the size of a thread: where so little is asked for, std::thread takes more.
pub fn period_in_reserve(tables: &[Table]) -> bool {
    serves("period", RESERVE, tables)
}

/// One try: a name, a size, and what `stack` was told to draw. True where it serves.
pub fn on_stack_command(args: &[String]) -> bool {
    if args.len() < 2 {
        return false;
    }
    let names = NAMES.iter().chain([&KNOWN.0]);
    let name = names.copied().find(|name| *name == args[0]);
    match (name, args[1].parse(), drawn(&args[2..])) {
        (Some(name), Ok(bytes), Some((count, seed))) if bytes <= MOST && bytes % STEP == 0 => {
            serves(name, bytes, &tables(count, seed))
        }
        _ => false,
    }
}

// ---- all tries ----------------------------------------------------------

/// How many tables are drawn, and from which seed.
fn drawn(args: &[String]) -> Option<(u64, Seed)> {
    let (count, seed) = options(args)?;
    Some((count.unwrap_or(20), Seed::new(seed.unwrap_or(1))))
}

/// How the comparison is started again, and what it is to draw.
struct Tries<'a> {
    program: &'a [String],
    drawn: &'a [String],
}

impl Tries<'_> {
    /// A process that ends in any other way than well has too little.
    fn serves(&self, name: &str, bytes: usize) -> std::io::Result<bool> {
        let status = Command::new(&self.program[0])
            .args(&self.program[1..])
            .args(["on-stack", name, &bytes.to_string()])
            .args(self.drawn)
            .stdin(Stdio::null())
            .stdout(Stdio::null())
            .stderr(Stdio::null())
            .status()?;
        Ok(status.success())
    }

    /// The smallest size that serves, found by halving between one that does not and one that does; none where there
    /// are no such two.
    fn smallest(&self, name: &str) -> std::io::Result<Option<usize>> {
        let (mut few, mut enough) = (0, MOST);
        if self.serves(name, few)? || !self.serves(name, enough)? {
            return Ok(None);
        }
        while enough - few > STEP {
            let middle = (few + enough) / 2;
            if self.serves(name, middle)? {
                enough = middle;
            } else {
                few = middle;
            }
        }
        Ok(Some(enough))
    }

    /// A line for each function. True where all were found, and what is known was found right.
    fn print(&self) -> std::io::Result<bool> {
        let (name, bytes) = KNOWN;
        let found = self.smallest(name)?;
        if found != Some(bytes) {
            println!("{} bytes are used, {:?} found", bytes, found);
            println!("sizes are measured wrongly, or PROGRAM does not start the comparison");
            return Ok(false);
        }
        let mut good = true;
        for name in NAMES {
            match self.smallest(name)? {
                Some(bytes) => println!("{} {} bytes", name, bytes),
                None => {
                    println!("{}: no stack serves, or every one does", name);
                    good = false;
                }
            }
        }
        Ok(good)
    }
}

/// What is to be drawn, `--`, and how the comparison is started, with its arguments.
pub fn stack_command(args: &[String]) -> bool {
    let mut parts = args.splitn(2, |arg| arg == "--");
    let (about, program) = (parts.next().unwrap_or(&[]), parts.next().unwrap_or(&[]));
    if program.is_empty() || drawn(about).is_none() {
        eprintln!("stack: --count N --seed S -- PROGRAM ARGUMENT..");
        return false;
    }
    let tries = Tries {
        program,
        drawn: about,
    };
    tries.print().unwrap_or_else(|error| {
        eprintln!("stack: {}", error);
        false
    })
}
