//! The functions of the static library, as include/trevozhil.h declares them.

use crate::judge::Numbers;

#[rustfmt::skip]
pub mod c {
    extern "C" {
        pub fn trevozhil_judge(s: *const u8, s_len: usize, a: *mut u64, b: *mut u64) -> u32;

        pub fn trevozhil_judge_numbers(
            p: u64, boards: u64, cells: u64, modes: u64, first: u64,
            follow: *const u64, follow_len: usize, ops: *const u64, ops_len: usize,
            holds: *const u64, holds_len: usize, mark: u64, decider: u64, a: *mut u64, b: *mut u64,
        ) -> u32;

        pub fn trevozhil_write(
            p: u64, boards: u64, cells: u64, modes: u64, first: u64,
            follow: *const u64, follow_len: usize, ops: *const u64, ops_len: usize,
            holds: *const u64, holds_len: usize, mark: u64, decider: u64,
            out: *mut u8, out_len: usize, a: *mut u64, b: *mut u64,
        ) -> u32;

        pub fn trevozhil_period(s: *const u8, s_len: usize, a: *mut u64, b: *mut u64) -> u32;

        pub fn trevozhil_gap(s: *const u8, s_len: usize, a: *mut u64, b: *mut u64) -> u32;

        pub fn trevozhil_boards_fit(s: *const u8, s_len: usize, q: u64, a: *mut u64, b: *mut u64) -> u32;

        pub fn trevozhil_values_arrive(s: *const u8, s_len: usize, q: u64, a: *mut u64, b: *mut u64) -> u32;

        pub fn trevozhil_plan(
            s: *const u8, s_len: usize, out: *mut u8, out_len: usize, a: *mut u64, b: *mut u64,
        ) -> u32;

        pub fn trevozhil_unfold(
            s: *const u8, s_len: usize, out: *mut u8, out_len: usize, a: *mut u64, b: *mut u64,
        ) -> u32;

        pub fn trevozhil_margin(
            s: *const u8, s_len: usize, i: u64, j: u64, n: u64, q: u64,
            margin: *mut i32, a: *mut u64, b: *mut u64,
        ) -> u32;

        pub fn trevozhil_fold(
            s: *const u8, s_len: usize, out: *mut u8, out_len: usize, a: *mut u64, b: *mut u64,
        ) -> u32;
    }
}

/// What a call tells: the number that it returns, and what a and b hold then.
#[derive(Clone, Copy, Debug, PartialEq, Eq)]
pub struct Said {
    pub number: u32,
    pub a: u64,
    pub b: u64,
}

/// What a and b hold before a call, which has to write both.
const BEFORE: (u64, u64) = (0xa5a5_a5a5_a5a5_a5a5, 0x5a5a_5a5a_5a5a_5a5a);

/// A call with places for a and b.
fn said(call: impl FnOnce(*mut u64, *mut u64) -> u32) -> Said {
    let (mut a, mut b) = BEFORE;
    let number = call(&mut a, &mut b);
    Said { number, a, b }
}

// Every pointer below comes from a whole slice or vector and goes with its
// length, and no two of them meet. An input is lent by a pointer that could
// write, so that the caller can see afterwards whether a call kept it.

pub fn judge(bytes: &mut [u8]) -> Said {
    let (s, s_len) = (bytes.as_mut_ptr(), bytes.len());
    said(|a, b| unsafe { c::trevozhil_judge(s, s_len, a, b) })
}

pub fn judge_numbers(n: &mut Numbers) -> Said {
    let (follow, follow_len) = (n.follow.as_mut_ptr(), n.follow.len());
    let (ops, ops_len) = (n.ops.as_mut_ptr(), n.ops.len());
    let (holds, holds_len) = (n.holds.as_mut_ptr(), n.holds.len());
    said(|a, b| unsafe {
        c::trevozhil_judge_numbers(
            n.p, n.boards, n.cells, n.modes, n.first, follow, follow_len, ops, ops_len, holds,
            holds_len, n.mark, n.decider, a, b,
        )
    })
}

pub fn write(n: &mut Numbers, out: &mut [u8]) -> Said {
    let (follow, follow_len) = (n.follow.as_mut_ptr(), n.follow.len());
    let (ops, ops_len) = (n.ops.as_mut_ptr(), n.ops.len());
    let (holds, holds_len) = (n.holds.as_mut_ptr(), n.holds.len());
    let (out, out_len) = (out.as_mut_ptr(), out.len());
    said(|a, b| unsafe {
        c::trevozhil_write(
            n.p, n.boards, n.cells, n.modes, n.first, follow, follow_len, ops, ops_len, holds,
            holds_len, n.mark, n.decider, out, out_len, a, b,
        )
    })
}

pub fn period(bytes: &mut [u8]) -> Said {
    let (s, s_len) = (bytes.as_mut_ptr(), bytes.len());
    said(|a, b| unsafe { c::trevozhil_period(s, s_len, a, b) })
}

pub fn gap(bytes: &mut [u8]) -> Said {
    let (s, s_len) = (bytes.as_mut_ptr(), bytes.len());
    said(|a, b| unsafe { c::trevozhil_gap(s, s_len, a, b) })
}

pub fn boards_fit(bytes: &mut [u8], q: u64) -> Said {
    let (s, s_len) = (bytes.as_mut_ptr(), bytes.len());
    said(|a, b| unsafe { c::trevozhil_boards_fit(s, s_len, q, a, b) })
}

pub fn values_arrive(bytes: &mut [u8], q: u64) -> Said {
    let (s, s_len) = (bytes.as_mut_ptr(), bytes.len());
    said(|a, b| unsafe { c::trevozhil_values_arrive(s, s_len, q, a, b) })
}

/// The margin goes to the middle one of three places.
pub fn margin(bytes: &mut [u8], asked: (u64, u64, u64, u64), places: &mut [i32; 3]) -> Said {
    let (i, j, n, q) = asked;
    let (s, s_len) = (bytes.as_mut_ptr(), bytes.len());
    said(|a, b| unsafe {
        let margin = places.as_mut_ptr().add(1);
        c::trevozhil_margin(s, s_len, i, j, n, q, margin, a, b)
    })
}

/// A function that reads bytes and writes bytes.
type Writing = unsafe extern "C" fn(*const u8, usize, *mut u8, usize, *mut u64, *mut u64) -> u32;

fn written(function: Writing, bytes: &mut [u8], out: &mut [u8]) -> Said {
    let (s, s_len) = (bytes.as_mut_ptr(), bytes.len());
    let (out, out_len) = (out.as_mut_ptr(), out.len());
    said(|a, b| unsafe { function(s, s_len, out, out_len, a, b) })
}

pub fn plan(bytes: &mut [u8], out: &mut [u8]) -> Said {
    written(c::trevozhil_plan, bytes, out)
}

pub fn unfold(reply: &mut [u8], out: &mut [u8]) -> Said {
    written(c::trevozhil_unfold, reply, out)
}

pub fn fold(bytes: &mut [u8], out: &mut [u8]) -> Said {
    written(c::trevozhil_fold, bytes, out)
}
