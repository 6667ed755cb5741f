//! The library's exports, and what makes replies of them.

use crate::{Limit, Refusal, Reply};

pub const SYNTAX: u8 = 1;
pub const LIMIT: u8 = 2;
pub const TOO_LONG: u8 = 5;
pub const USAGE: u8 = 6;
pub const DIFFERS: u8 = 7;
const DONE: u8 = 0;

/// A reply that is longer is asked for again, with as much room as it needs.
const FIRST_ROOM: usize = 65_536;

pub type BytesJob = unsafe extern "C" fn(*const u8, usize, *mut u8, usize, *mut usize) -> u8;
pub type NumberJob = unsafe extern "C" fn(u64, *mut u8, usize, *mut usize) -> u8;

extern "C" {
    pub fn mifdagus_raw_replay(script: *const u8, size: usize, reply: *mut u8, room: usize, needed: *mut usize) -> u8;
    pub fn mifdagus_raw_check(script: *const u8, size: usize, reply: *mut u8, room: usize, needed: *mut usize) -> u8;
    pub fn mifdagus_raw_lint(script: *const u8, size: usize, reply: *mut u8, room: usize, needed: *mut usize) -> u8;
    pub fn mifdagus_raw_summary(script: *const u8, size: usize, reply: *mut u8, room: usize, needed: *mut usize) -> u8;
    pub fn mifdagus_raw_print(script: *const u8, size: usize, reply: *mut u8, room: usize, needed: *mut usize) -> u8;
    pub fn mifdagus_raw_judge(recording: *const u8, size: usize, reply: *mut u8, room: usize, needed: *mut usize) -> u8;
    pub fn mifdagus_raw_pages(stream: *const u8, size: usize, reply: *mut u8, room: usize, needed: *mut usize) -> u8;
    pub fn mifdagus_raw_generate(number: u64, reply: *mut u8, room: usize, needed: *mut usize) -> u8;
    pub fn mifdagus_raw_generate_run(number: u64, reply: *mut u8, room: usize, needed: *mut usize) -> u8;
    pub fn mifdagus_raw_inspect(
        tick: u64, script: *const u8, size: usize, reply: *mut u8, room: usize, needed: *mut usize,
    ) -> u8;
    pub fn mifdagus_raw_hit(
        tick: u64, x: *const u8, x_size: usize, y: *const u8, y_size: usize, script: *const u8, size: usize, reply: *mut u8,
        room: usize, needed: *mut usize,
    ) -> u8;
}

/// A status with the whole text that was written with it.
pub struct Answer {
    pub code: u8,
    text: Vec<u8>,
}

/// Calls a job, again if its reply was longer than the room for it.
pub fn gather(mut job: impl FnMut(&mut [u8], *mut usize) -> u8) -> Result<Answer, Refusal> {
    let mut needed = FIRST_ROOM;
    loop {
        let mut text = Vec::new();
        text.try_reserve_exact(needed).map_err(|_| Refusal::NoMemory)?;
        text.resize(needed, 0);
        let code = job(&mut text, &mut needed);
        match code {
            TOO_LONG => continue,
            DONE | SYNTAX | LIMIT | DIFFERS => {
                text.truncate(needed);
                return Ok(Answer { code, text });
            }
            USAGE => return Err(Refusal::Usage),
            _ => return Err(Refusal::NoMemory),
        }
    }
}

pub fn bytes_job(job: BytesJob, bytes: &[u8]) -> Result<Answer, Refusal> {
    // SAFETY: both slices are valid for the call, and the reply's is not shared.
    gather(|room, needed| unsafe { job(bytes.as_ptr(), bytes.len(), room.as_mut_ptr(), room.len(), needed) })
}

pub fn script_job(job: BytesJob, script: &[u8]) -> Result<Reply, Refusal> {
    bytes_job(job, script)?.into_reply()
}

pub fn number_job(job: NumberJob, number: u64) -> Result<Reply, Refusal> {
    // SAFETY: the reply's slice is valid for the call, and not shared.
    gather(|room, needed| unsafe { job(number, room.as_mut_ptr(), room.len(), needed) })?.into_reply()
}

/// The words of the text's last line.
fn last_words(text: &[u8]) -> Vec<&str> {
    let text = std::str::from_utf8(text).unwrap_or("");
    text.trim_end_matches('\n').rsplit('\n').next().unwrap_or("").split(' ').collect()
}

impl Answer {
    pub fn into_reply(self) -> Result<Reply, Refusal> {
        if self.code != SYNTAX {
            return Ok(self.into_text());
        }
        let words = last_words(&self.text);
        let number = |at: usize| words.get(at).and_then(|word| word.parse().ok()).unwrap_or(0);
        Err(Refusal::Syntax { line: number(1), column: number(2) })
    }

    pub fn into_text(self) -> Reply {
        let limit = if self.code == LIMIT { limit_of(&self.text) } else { None };
        Reply { text: self.text, limit }
    }
}

fn limit_of(text: &[u8]) -> Option<Limit> {
    let words = last_words(text);
    let [.., "limit", kind, line, number] = words[..] else {
        return None;
    };
    Some(Limit { kind: kind.to_owned(), line: line.parse().ok()?, number: number.parse().ok()? })
}
