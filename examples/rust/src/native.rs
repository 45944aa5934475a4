//! The calls of the library. Each `unsafe` block stands on what registry.h asks of a caller: pointers that are valid for
//! their lengths, and a room that nothing else uses during the call.

use crate::fault::{Cause, Fault, Field, Place};

/// `struct registry_answer` of registry.h.
#[repr(C)]
struct Answer {
    status: u32,
    cause: u32,
    row: u64,
    length: usize,
}

/// `struct registry_place` of registry.h.
#[repr(C)]
struct Found {
    status: u32,
    cause: u32,
    row: u64,
    field: u32,
    column: u32,
}

const DONE: u32 = 0;
const NO_ACCOUNT: u32 = 2;
const FAULT: u32 = 3;
const NO_DATE: u32 = 6;

extern "C" {
    fn registry_settle(day: *const u8, day_length: usize, room: *mut u8, room_length: usize) -> Answer;
    fn registry_report_most(day_length: usize) -> usize;
    fn registry_try(day: *const u8, day_length: usize, room: *mut u8, room_length: usize) -> Answer;
    fn registry_plan(day: *const u8, day_length: usize, room: *mut u8, room_length: usize) -> Answer;
    fn registry_figures(day: *const u8, day_length: usize, room: *mut u8, room_length: usize) -> Answer;
    fn registry_totals(day: *const u8, day_length: usize, room: *mut u8, room_length: usize) -> Answer;
    fn registry_statement(day: *const u8, day_length: usize, account: u32, room: *mut u8, room_length: usize)
        -> Answer;
    fn registry_statements(day: *const u8, day_length: usize, room: *mut u8, room_length: usize) -> Answer;
    fn registry_next(
        day: *const u8,
        day_length: usize,
        date: *const u8,
        date_length: usize,
        room: *mut u8,
        room_length: usize,
    ) -> Answer;
    fn registry_version_string(room: *mut u8, room_length: usize) -> Answer;
    fn registry_cause_word(cause: u32, room: *mut u8, room_length: usize) -> Answer;
    fn registry_refusal_word(code: u32, room: *mut u8, room_length: usize) -> Answer;
    fn registry_refusal_sentence(code: u32, room: *mut u8, room_length: usize) -> Answer;
    fn registry_find_fault(day: *const u8, day_length: usize) -> Found;
    fn registry_field_name(column: u32, room: *mut u8, room_length: usize) -> Answer;
    fn registry_fault_sentence(cause: u32, column: u32, room: *mut u8, room_length: usize) -> Answer;
}

type Call = unsafe extern "C" fn(*const u8, usize, *mut u8, usize) -> Answer;

/// Asks with so much room, and if that is too little, once more with as much as is needed.
fn ask(guess: usize, mut call: impl FnMut(&mut [u8]) -> Answer) -> Result<Vec<u8>, Fault> {
    let mut length = guess;
    loop {
        let mut room = vec![0; length];
        let answer = call(&mut room);
        match answer.status {
            DONE if answer.length <= room.len() => {
                room.truncate(answer.length);
                return Ok(room);
            }
            DONE => length = answer.length,
            NO_ACCOUNT => return Err(Fault::NoAccount(0)),
            FAULT => return Err(fault_of(&answer)),
            NO_DATE => return Err(Fault::NoNextDate),
            _ => return Err(Fault::NoMemory),
        }
    }
}

fn fault_of(answer: &Answer) -> Fault {
    Fault::Row { row: answer.row, cause: cause_with(answer.cause) }
}

fn cause_with(number: u32) -> Cause {
    Cause::ALL[number as usize - 1]
}

/// Where the first fault stands, if there is one.
pub(crate) fn find_fault(day: &[u8]) -> Result<Option<Place>, Fault> {
    // SAFETY: the pointer is valid for this length.
    let found = unsafe { registry_find_fault(day.as_ptr(), day.len()) };
    match found.status {
        DONE => Ok(None),
        FAULT => {
            let field = (found.field > 0)
                .then(|| Field { number: found.field as usize, name: words_of(registry_field_name, found.column) });
            let sentence = fault_sentence(found.cause, found.column);
            Ok(Some(Place { row: found.row, cause: cause_with(found.cause), field, sentence }))
        }
        _ => Err(Fault::NoMemory),
    }
}

fn fault_sentence(cause: u32, column: u32) -> String {
    // SAFETY: as in `words_of`.
    words(|room| unsafe { registry_fault_sentence(cause, column, room.as_mut_ptr(), room.len()) })
}

fn command(call: Call, day: &[u8]) -> Result<Vec<u8>, Fault> {
    ask(2 * day.len() + 4096, |room| {
        // SAFETY: both pointers are valid for these lengths, and `room` is borrowed for this call alone.
        unsafe { call(day.as_ptr(), day.len(), room.as_mut_ptr(), room.len()) }
    })
}

pub(crate) fn settle(day: &[u8]) -> Result<Vec<u8>, Fault> {
    command(registry_settle, day)
}

pub(crate) fn report_most(day_length: usize) -> usize {
    // SAFETY: it takes and gives numbers alone.
    unsafe { registry_report_most(day_length) }
}

pub(crate) fn attempt(day: &[u8]) -> Result<Vec<u8>, Fault> {
    command(registry_try, day)
}

pub(crate) fn plan(day: &[u8]) -> Result<Vec<u8>, Fault> {
    command(registry_plan, day)
}

pub(crate) fn figures(day: &[u8]) -> Result<Vec<u8>, Fault> {
    command(registry_figures, day)
}

pub(crate) fn totals(day: &[u8]) -> Result<Vec<u8>, Fault> {
    command(registry_totals, day)
}

pub(crate) fn statements(day: &[u8]) -> Result<Vec<u8>, Fault> {
    command(registry_statements, day)
}

pub(crate) fn statement(day: &[u8], account: u32) -> Result<Vec<u8>, Fault> {
    ask(day.len() + 4096, |room| {
        // SAFETY: as in `command`.
        unsafe { registry_statement(day.as_ptr(), day.len(), account, room.as_mut_ptr(), room.len()) }
    })
    .map_err(|fault| match fault {
        // (the library is told which, and tells it not again)
        Fault::NoAccount(_) => Fault::NoAccount(account),
        other => other,
    })
}

pub(crate) fn next_day(day: &[u8], date: &str) -> Result<Vec<u8>, Fault> {
    ask(day.len() + 4096, |room| {
        // SAFETY: as in `command`.
        unsafe { registry_next(day.as_ptr(), day.len(), date.as_ptr(), date.len(), room.as_mut_ptr(), room.len()) }
    })
}

type Words = unsafe extern "C" fn(u32, *mut u8, usize) -> Answer;

/// Words that the library tells, whatever it is asked, in at most 128 bytes of ASCII.
fn words(call: impl FnOnce(&mut [u8]) -> Answer) -> String {
    let mut room = [0; 128];
    let length = call(&mut room).length;
    String::from_utf8_lossy(&room[..length.min(128)]).into_owned()
}

fn words_of(call: Words, number: u32) -> String {
    // SAFETY: the pointer is valid for this length, and `room` is borrowed for this call alone.
    words(|room| unsafe { call(number, room.as_mut_ptr(), room.len()) })
}

pub(crate) fn version() -> String {
    // SAFETY: as in `words_of`.
    words(|room| unsafe { registry_version_string(room.as_mut_ptr(), room.len()) })
}

pub(crate) fn cause_word(cause: u32) -> String {
    words_of(registry_cause_word, cause)
}

pub(crate) fn refusal_word(code: u32) -> String {
    words_of(registry_refusal_word, code)
}

pub(crate) fn refusal_sentence(code: u32) -> String {
    words_of(registry_refusal_sentence, code)
}
