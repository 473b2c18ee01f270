//! What is seen of a call, and what was found in all of them.

use crate::blamed::{Blamed, LAYOUT};
use crate::deciders::Deciders;
use crate::generate::Seed;
use crate::hex::hex;
use crate::holds::Holds;
use crate::judge::Refusal;
use crate::library::Said;

/// The functions that are compared, each with the numbers that have to be met: 0
/// for success, and each refusal that the function can give. What `fold` writes of
/// a refused table is counted by itself, and so are the yes and the no of a question,
/// and gaps beside the period.
const FUNCTIONS: [(&str, &[usize]); 20] = [
    ("judge", &[0, 1, 2, 3, 4, 5, 6, 7, 10]),
    ("judge_numbers", &[0, 1, 2, 3, 4, 5, 6, 7, 10]),
    ("write", &[0, 1, 2, 3, 4, 5, 6, 7, 8, 10]),
    ("period", &[0, 1, 2, 3, 4, 5, 6, 7, 10]),
    ("gap", &[1, 2, 3, 4, 5, 6, 7, 10]),
    ("gap, the period", &[0]),
    ("gap, longer", &[0]),
    ("gap, longer, p", &[0]),
    ("gap, fixed", &[0]),
    ("boards_fit", &[1, 2, 3, 4, 5, 6, 7, 9, 10]),
    ("boards_fit, yes", &[0]),
    ("boards_fit, no", &[0]),
    ("values_arrive", &[1, 2, 3, 4, 5, 6, 7, 9, 10]),
    ("values_arrive, yes", &[0]),
    ("values_arrive, no", &[0]),
    ("plan", &[0, 1, 2, 3, 4, 5, 6, 7, 8, 10]),
    ("unfold", &[0, 1, 2, 3, 4, 5, 8]),
    ("margin", &[0, 1, 2, 3, 4, 5, 6, 7, 9, 10]),
    ("fold", &[0, 8]),
    ("fold, refused", &[0, 8]),
];

/// Success and the refusals, by their numbers.
pub const NAMES: [&str; 11] = [
    "good", "SHORT", "ORDER", "SIZE", "RANGE", "MANY", "CLASH", "RACE", "ROOM", "ASK", "EARLY",
];

/// The functions whose RANGE is looked into, each with the numbers that it has to be
/// seen to blame, by their places in LAYOUT: those of a table or of a reply. A start
/// is blamed only where it is handed over as a number.
const BLAMING: [(&str, &[usize]); 3] = [
    ("judge", &[0, 1, 2, 3, 4, 5, 7, 8, 9, 10, 11, 12, 13]),
    (
        "judge_numbers",
        &[0, 1, 2, 3, 4, 5, 6, 7, 8, 9, 10, 11, 12, 13],
    ),
    ("unfold", &[14, 15, 16]),
];

/// Those of LAYOUT that have others of their field behind them.
const LEADING: [usize; 11] = [1, 2, 4, 5, 6, 7, 8, 9, 10, 11, 15];

/// How many differences are printed; the others are only counted.
pub const MOST_PRINTED: u64 = 5;

/// Bytes in front of a lent buffer and behind it, which have to stay.
const GUARD: usize = 16;

// ---- what is seen of a call ---------------------------------------------

/// What is told, whether the input is as it was, and the lent memory with the
/// bytes around it.
#[derive(Clone, PartialEq, Eq)]
pub struct Seen {
    pub said: Said,
    pub kept: bool,
    pub memory: Vec<u8>,
}

impl Seen {
    /// Of a call with this input, which may write to memory that is like this before.
    pub fn of<T: Clone + PartialEq>(
        input: T,
        before: &[u8],
        call: impl FnOnce(&mut T, &mut [u8]) -> Said,
    ) -> Seen {
        let (mut copy, mut memory) = (input.clone(), before.to_vec());
        let said = call(&mut copy, &mut memory);
        let kept = copy == input;
        Seen { said, kept, memory }
    }
}

/// An answer as the library tells it: on success the number is 0, a the number of
/// bytes written or what was asked for (0 where neither is told) and b 0.
pub fn said_of(answer: Result<usize, Refusal>) -> Said {
    match answer {
        Ok(count) => Said {
            number: 0,
            a: count as u64,
            b: 0,
        },
        Err(refusal) => Said {
            number: refusal.number,
            a: refusal.a,
            b: refusal.b,
        },
    }
}

/// What the planner's answer looks like.
pub fn planned(answer: Result<usize, Refusal>, memory: Vec<u8>) -> Seen {
    Seen {
        said: said_of(answer),
        kept: true,
        memory,
    }
}

/// Memory with a pattern for a buffer of this length.
pub fn memory_for(seed: &mut Seed, length: usize) -> Vec<u8> {
    let first = seed.draw() as u8;
    (0..GUARD + length + GUARD)
        .map(|place| first.wrapping_add((place * 7 + place / 256) as u8))
        .collect()
}

/// The part of the memory that is lent.
pub fn lent(memory: &mut [u8]) -> &mut [u8] {
    let end = memory.len() - GUARD;
    &mut memory[GUARD..end]
}

// ---- the numbers that RANGE blames --------------------------------------

/// How often a number was blamed, and how often of these it was the first of several
/// wrong ones in its field.
#[derive(Clone, Copy, Default)]
struct Blames {
    all: u64,
    first: u64,
}

/// The numbers that were blamed, by function and by their places in LAYOUT, and how
/// often a later field had a wrong number too.
#[derive(Default)]
struct Blaming {
    blames: [[Blames; LAYOUT.len()]; BLAMING.len()],
    two_fields: [u64; BLAMING.len()],
}

impl Blaming {
    /// The wrong numbers of one input of a function.
    fn note(&mut self, name: &str, wrong: &[Blamed]) {
        let place = BLAMING.iter().position(|function| function.0 == name);
        let place = place.expect("a function");
        if let Some(first) = wrong.first() {
            let blames = &mut self.blames[place][first.number];
            let in_field = wrong.iter().filter(|it| it.a == first.a).count();
            blames.all += 1;
            blames.first += u64::from(in_field > 1);
            self.two_fields[place] += u64::from(in_field < wrong.len());
        }
    }

    fn print(&self) {
        print!("{:<18}", "");
        BLAMING.iter().for_each(|(name, _)| print!("{:>16}", name));
        print!("\n{:<18}", "RANGE blames");
        BLAMING.iter().for_each(|_| print!("     all   first"));
        println!();
        for (place, number) in LAYOUT.iter().enumerate() {
            print!("{:<18}", number.name);
            for Blames { all, first } in self.blames.iter().map(|blames| blames[place]) {
                print!("{:>8}{:>8}", all, first);
            }
            println!();
        }
        let [table, numbers, reply] = self.two_fields;
        println!(
            "{:<18}{:>8}{:>16}{:>16}",
            "in two fields", table, numbers, reply
        );
    }

    /// What a function has to be seen to blame, and was not.
    fn missed(&self) -> Vec<String> {
        let mut all = Vec::new();
        for (place, (name, numbers)) in BLAMING.iter().enumerate() {
            for number in numbers.iter() {
                let (blames, blamed) = (self.blames[place][*number], LAYOUT[*number].name);
                if blames.all == 0 {
                    all.push(format!("{} never blamed {}", name, blamed));
                }
                if blames.first == 0 && LEADING.contains(number) {
                    all.push(format!(
                        "{} never blamed {}, first of several",
                        name, blamed
                    ));
                }
            }
            if self.two_fields[place] == 0 {
                all.push(format!("{} never had two wrong fields", name));
            }
        }
        all
    }
}

// ---- what was found -----------------------------------------------------

/// How often each function gave each number, the numbers that RANGE blames, what was met of
/// deciders and of holds, and how many answers differ.
#[derive(Default)]
pub struct Findings {
    met: [[u64; NAMES.len()]; FUNCTIONS.len()],
    blaming: Blaming,
    pub deciders: Deciders,
    pub holds: Holds,
    pub differences: u64,
}

impl Findings {
    /// One input of a function, with both answers to it.
    pub fn note(&mut self, name: &str, input: impl Fn() -> String, library: &Seen, planner: &Seen) {
        let place = FUNCTIONS.iter().position(|function| function.0 == name);
        self.met[place.expect("a function")][planner.said.number as usize] += 1;
        if library == planner {
            return;
        }
        self.differences += 1;
        if self.differences <= MOST_PRINTED {
            println!("{} differs on {}", name, input());
            print_seen("library", library);
            print_seen("planner", planner);
        }
    }

    /// The wrong numbers of an input of a function, as the planner blames them.
    pub fn note_blamed(&mut self, name: &str, wrong: &[Blamed]) {
        self.blaming.note(name, wrong);
    }

    /// The tables of what was met.
    pub fn print(&self) {
        print!("{:<18}", "");
        NAMES.iter().for_each(|name| print!("{:>8}", name));
        println!();
        for (place, (name, _)) in FUNCTIONS.iter().enumerate() {
            print!("{:<18}", name);
            self.met[place]
                .iter()
                .for_each(|count| print!("{:>8}", count));
            println!();
        }
        self.blaming.print();
        self.deciders.print();
        self.holds.print();
    }

    /// The numbers that a function has to be seen to give or to blame, and was not, and the
    /// kinds of inputs with a decider or with a hold that were not met.
    pub fn missed(&self) -> Vec<String> {
        let mut all = Vec::new();
        for (place, (name, numbers)) in FUNCTIONS.iter().enumerate() {
            for number in numbers.iter() {
                if self.met[place][*number] == 0 {
                    all.push(format!("{} was never {}", name, NAMES[*number]));
                }
            }
        }
        all.extend(self.blaming.missed());
        all.extend(self.deciders.missed());
        all.extend(self.holds.missed());
        all
    }
}

pub fn print_seen(who: &str, seen: &Seen) {
    let Said { number, a, b } = seen.said;
    let input = if seen.kept { "" } else { ", input changed" };
    println!("  {} {} {} {}{}", who, number, a, b, input);
    if !seen.memory.is_empty() {
        println!("    memory {}", hex(&seen.memory));
    }
}
