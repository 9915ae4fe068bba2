//! The functions of the archive, each behind a safe one. All that is unsafe is here.
//!
//! A slice is passed as its pointer and its length. The pointer of a slice is never null, not
//! even of an empty one, and slices that are lent mutably overlap no other, as the archive asks.
//! It reads and writes within the slices, the figures and the desk alone, keeps no pointer and
//! has no state.

#![allow(unsafe_code)]
#![deny(clippy::undocumented_unsafe_blocks)]

use crate::{Refusal, Sight, Week};

/// The figures of a call, by places; a place that the call or its outcome does not name is 0.
pub type Values = [u64; 16];

/// The archive's desk. Only an opening that is not refused makes one and only the calls below
/// change it, as the archive asks.
#[repr(C)]
#[derive(Clone)]
pub struct RawDesk([u64; 1_067]);

/// What opening a desk gives: the number of the refusal and its place, or 0 and the desk.
#[repr(C)]
struct Opening {
    desk: RawDesk,
    number: u8,
    place: usize,
}

/// What firing a rule gives: the number of the refusal, or 0 and the processes of its letter.
#[repr(C)]
pub struct Fire {
    pub number: u8,
    pub processes: u8,
}

/// What a desk has counted.
#[repr(C)]
struct Counts {
    steps: [u64; 4],
}

/// What planning gives: the number of the refusal and its place, or 0 and 0.
#[repr(C)]
struct Planned {
    number: u8,
    place: usize,
}

unsafe extern "C" {
    fn roskavel_answer(
        table: *const u8,
        table_length: usize,
        log: *mut u8,
        log_length: usize,
        scratch: *mut u8,
        scratch_length: usize,
        figures: *mut Values,
    );
    fn roskavel_run(
        table: *const u8,
        table_length: usize,
        log: *mut u8,
        log_length: usize,
        scratch: *mut u8,
        scratch_length: usize,
        page: *mut u16,
        page_length: usize,
        figures: *mut Values,
    );
    fn roskavel_walk(
        table: *const u8,
        table_length: usize,
        rules: *const u16,
        rules_length: usize,
        pile: *mut u8,
        pile_length: usize,
        scratch: *mut u8,
        scratch_length: usize,
        figures: *mut Values,
    );
    fn roskavel_plan(
        table: *const u8,
        table_length: usize,
        run: *const u16,
        run_length: usize,
        week: Week,
        lengths: *const u16,
        lengths_length: usize,
        start: i64,
        begins: *mut i64,
        begins_length: usize,
    ) -> Planned;
    fn roskavel_desk_open(table: *const u8, table_length: usize) -> Opening;
    fn roskavel_desk_fire(desk: *mut RawDesk, rule: u16) -> Fire;
    fn roskavel_desk_save(desk: *mut RawDesk, name: u8) -> u8;
    fn roskavel_desk_return(desk: *mut RawDesk, name: u8) -> u8;
    fn roskavel_desk_forget(desk: *mut RawDesk, name: u8) -> u8;
    fn roskavel_desk_look(desk: *const RawDesk) -> Sight;
    fn roskavel_desk_count(desk: *const RawDesk) -> Counts;
}

/// What [`crate::figures::answer`] does.
pub fn answer(table: &[u8], log: &mut [u8], scratch: &mut [u8], figures: &mut Values) {
    // SAFETY: pointers and lengths are those of slices, as said above.
    unsafe {
        roskavel_answer(
            table.as_ptr(),
            table.len(),
            log.as_mut_ptr(),
            log.len(),
            scratch.as_mut_ptr(),
            scratch.len(),
            figures,
        );
    }
}

/// What [`crate::figures::run`] does.
pub fn run(
    table: &[u8],
    log: &mut [u8],
    scratch: &mut [u8],
    page: &mut [u16],
    figures: &mut Values,
) {
    // SAFETY: as for answer.
    unsafe {
        roskavel_run(
            table.as_ptr(),
            table.len(),
            log.as_mut_ptr(),
            log.len(),
            scratch.as_mut_ptr(),
            scratch.len(),
            page.as_mut_ptr(),
            page.len(),
            figures,
        );
    }
}

/// What [`crate::figures::walk`] does.
pub fn walk(
    table: &[u8],
    rules: &[u16],
    pile: &mut [u8],
    scratch: &mut [u8],
    figures: &mut Values,
) {
    // SAFETY: as for answer; the table and the list are only read.
    unsafe {
        roskavel_walk(
            table.as_ptr(),
            table.len(),
            rules.as_ptr(),
            rules.len(),
            pile.as_mut_ptr(),
            pile.len(),
            scratch.as_mut_ptr(),
            scratch.len(),
            figures,
        );
    }
}

/// What [`crate::plan()`] does.
pub fn plan(
    table: &[u8],
    run: &[u16],
    week: &Week,
    lengths: &[u16],
    start: i64,
    begins: &mut [i64],
) -> Result<(), Refusal> {
    // SAFETY: as for answer; only the list of begins is written.
    let planned = unsafe {
        roskavel_plan(
            table.as_ptr(),
            table.len(),
            run.as_ptr(),
            run.len(),
            *week,
            lengths.as_ptr(),
            lengths.len(),
            start,
            begins.as_mut_ptr(),
            begins.len(),
        )
    };
    Refusal::check(u64::from(planned.number), planned.place)
}

pub fn open(table: &[u8]) -> Result<RawDesk, Refusal> {
    // SAFETY: pointer and length are those of a slice, which is only read.
    let opening = unsafe { roskavel_desk_open(table.as_ptr(), table.len()) };
    Refusal::check(u64::from(opening.number), opening.place)?;
    Ok(opening.desk)
}

// The calls that change a desk give the number of the refusal, 0 if there is none.

pub fn fire(desk: &mut RawDesk, rule: u16) -> Fire {
    // SAFETY: the desk is one that an opening gave, and nothing else has changed it.
    unsafe { roskavel_desk_fire(desk, rule) }
}

pub fn save(desk: &mut RawDesk, name: u8) -> u8 {
    // SAFETY: as for fire.
    unsafe { roskavel_desk_save(desk, name) }
}

pub fn return_to(desk: &mut RawDesk, name: u8) -> u8 {
    // SAFETY: as for fire.
    unsafe { roskavel_desk_return(desk, name) }
}

pub fn forget(desk: &mut RawDesk, name: u8) -> u8 {
    // SAFETY: as for fire.
    unsafe { roskavel_desk_forget(desk, name) }
}

pub fn look(desk: &RawDesk) -> Sight {
    // SAFETY: as for fire; the desk is only read.
    unsafe { roskavel_desk_look(desk) }
}

pub fn count(desk: &RawDesk) -> [u64; 4] {
    // SAFETY: as for look.
    unsafe { roskavel_desk_count(desk) }.steps
}
