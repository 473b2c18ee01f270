//! The wrong numbers of an input, as RANGE blames them: the first one, the next one
//! once that is put right, and so on.

use crate::answers::starts_of;
use crate::judge::{behind_ops, judge, judge_numbers, number_in, push_number};
use crate::judge::{Numbers, Refusal, OP_LENGTHS, PLACES_PER_OP, RANGE};

/// A number of the layout: its name, the tag of its field, its place in the field and
/// its bytes, and what is in range whatever the other numbers are (of a duration, where
/// its operation starts at 0; of a hold, where it also lasts one tick and the table two).
/// The places in a field 04 are those in 20 bytes.
pub struct Number {
    pub name: &'static str,
    tag: u8,
    place: u64,
    bytes: u32,
    right: u64,
}

const fn number(name: &'static str, tag: u8, place: u64, bytes: u32, right: u64) -> Number {
    Number {
        name,
        tag,
        place,
        bytes,
        right,
    }
}

/// The numbers of a table and those of a reply, in layout order. The followers of all
/// modes have one line.
pub const LAYOUT: [Number; 17] = [
    number("length", 0x01, 3, 2, 1000),
    number("boards", 0x02, 3, 1, 16),
    number("cells", 0x02, 4, 1, 32),
    number("modes", 0x02, 5, 1, 1),
    number("first modes", 0x03, 3, 4, 1),
    number("followers", 0x03, 7, 4, 1),
    number("start", 0x04, 3, 2, 0),
    number("duration", 0x04, 5, 2, 1),
    number("hold", 0x04, 7, 2, 1),
    number("boards of an op", 0x04, 9, 2, 1),
    number("reads", 0x04, 11, 4, 0),
    number("writes", 0x04, 15, 4, 0),
    number("modes of an op", 0x04, 19, 4, 1),
    number("decider", 0x05, 3, 1, 0),
    number("period", 0x11, 3, 2, 1000),
    number("folded start", 0x12, 3, 2, 0),
    number("start index", 0x12, 5, 2, 0),
];

/// Places in LAYOUT.
const LENGTH: usize = 0;
const FOLLOWERS: usize = 5;
const START: usize = 6;
const DURATION: usize = 7;
const HOLD: usize = 8;
const DECIDER: usize = 13;

/// A number that RANGE blames: the offset of its field, its own, and its place in
/// LAYOUT.
#[derive(Clone, Copy, Debug, PartialEq, Eq)]
pub struct Blamed {
    pub a: u64,
    pub b: u64,
    pub number: usize,
}

/// An input that is judged.
trait Input {
    fn refusal(&self) -> Option<Refusal>;

    /// The tag of the field at this offset.
    fn tag(&self, at: u64) -> u8;

    /// The operation's field at this offset has no hold.
    fn is_without_hold(&self, at: u64) -> bool;

    /// Gives the blamed number another value.
    fn put(&mut self, blamed: Blamed, value: u64);
}

/// The bytes of a table or of a reply.
struct Bytes {
    bytes: Vec<u8>,
    judged: fn(&[u8]) -> Option<Refusal>,
}

impl Input for Bytes {
    fn refusal(&self) -> Option<Refusal> {
        (self.judged)(&self.bytes)
    }

    fn tag(&self, at: u64) -> u8 {
        self.bytes[at as usize]
    }

    fn is_without_hold(&self, at: u64) -> bool {
        let length = at as usize + 1;
        number_in(&self.bytes[length..length + 2]) == OP_LENGTHS[0] as u64
    }

    fn put(&mut self, blamed: Blamed, value: u64) {
        let mut bytes = Vec::new();
        push_number(&mut bytes, value, LAYOUT[blamed.number].bytes);
        let begin = blamed.b as usize;
        self.bytes[begin..begin + bytes.len()].copy_from_slice(&bytes);
    }
}

impl Numbers {
    /// The operation whose field is at this offset: none for what is behind the last one.
    fn op_at(&self, at: u64) -> Option<usize> {
        let offset = |op: &usize| behind_ops(self.modes, self.whole().take(*op));
        (0..self.whole_ops()).find(|op| offset(op) == at)
    }
}

impl Input for Numbers {
    fn refusal(&self) -> Option<Refusal> {
        judge_numbers(self).err()
    }

    fn tag(&self, at: u64) -> u8 {
        match at {
            0 => 0x01,
            5 => 0x02,
            11 => 0x03,
            _ if self.op_at(at).is_some() => 0x04,
            _ => 0x05,
        }
    }

    fn is_without_hold(&self, at: u64) -> bool {
        let op = self.op_at(at).and_then(|op| self.whole().nth(op));
        op.map_or(false, |op| op.hold.is_none())
    }

    fn put(&mut self, blamed: Blamed, value: u64) {
        let Blamed { a, b, number } = blamed;
        let place = if number < FOLLOWERS {
            number
        } else if number == FOLLOWERS {
            FOLLOWERS + (b - 18) as usize / 4
        } else if number == DECIDER {
            self.decider_place()
        } else {
            let op = self.op_at(a).expect("an operation's offset");
            self.before_ops() + PLACES_PER_OP * op + number - START
        };
        *self.number(place) = value;
    }
}

/// The number that RANGE blames, if that is the refusal.
fn blamed_of(input: &impl Input) -> Option<Blamed> {
    let refusal = input.refusal().filter(|it| it.number == RANGE)?;
    let Refusal { a, b, .. } = refusal;
    let (tag, mut place) = (input.tag(a), b - a);
    if tag == 0x03 {
        place = place.min(LAYOUT[FOLLOWERS].place);
    }
    if tag == 0x04 && place > LAYOUT[DURATION].place && input.is_without_hold(a) {
        place += u64::from(LAYOUT[HOLD].bytes);
    }
    let is_it = |number: &Number| (number.tag, number.place) == (tag, place);
    let number = LAYOUT.iter().position(is_it).expect("a number's offset");
    Some(Blamed { a, b, number })
}

/// Put right. "An operation that ends after p blames its duration": the start is put right
/// with it, since it may be the one that is too late. So are both with a hold that runs
/// past p, and the table's length, since in one tick there is room for no hold.
fn put_right(input: &mut impl Input, blamed: Blamed) {
    let Blamed { a, b, number } = blamed;
    input.put(blamed, LAYOUT[number].right);
    if number == DURATION || number == HOLD {
        let (b, number) = (b - 2, number - 1);
        put_right(input, Blamed { a, b, number });
    }
    if number == HOLD {
        let (a, b, number) = (0, LAYOUT[LENGTH].place, LENGTH);
        put_right(input, Blamed { a, b, number });
    }
}

/// All that are blamed in turn. One that is blamed again though it was put right is
/// the last.
fn all_blamed(mut input: impl Input) -> Vec<Blamed> {
    let mut all = Vec::new();
    while let Some(blamed) = blamed_of(&input) {
        let again = all.contains(&blamed);
        all.push(blamed);
        if again {
            break;
        }
        put_right(&mut input, blamed);
    }
    all
}

/// Of a table's bytes.
pub fn in_table(bytes: &[u8]) -> Vec<Blamed> {
    all_blamed(Bytes {
        bytes: bytes.to_vec(),
        judged: |bytes| judge(bytes).err(),
    })
}

/// Of a table handed over as numbers.
pub fn in_numbers(numbers: &Numbers) -> Vec<Blamed> {
    all_blamed(numbers.clone())
}

/// Of a reply's bytes.
pub fn in_reply(bytes: &[u8]) -> Vec<Blamed> {
    all_blamed(Bytes {
        bytes: bytes.to_vec(),
        judged: |bytes| starts_of(bytes).err(),
    })
}
