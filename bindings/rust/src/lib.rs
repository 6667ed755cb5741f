//! The jobs of Mifdagus' program `replay`, proved, in this process.
//!
//! ```
//! let trace = mifdagus::replay(b"script 1\nsay hello\n")?;
//! assert_eq!(trace.text, b"say hello\n");
//! assert_eq!(trace.limit, None);
//! # Ok::<(), mifdagus::Refusal>(())
//! ```
//!
//! A text that isn't a script is refused with its place:
//!
//! ```
//! let refusal = mifdagus::replay(b"script 1\nsay 5\n").unwrap_err();
//! assert_eq!(refusal, mifdagus::Refusal::Syntax { line: 2, column: 5 });
//! assert_eq!(refusal.to_string(), "line 2, column 5: the text isn't a script from here on");
//! ```
//!
//! The calls have contracts, which the library was proved to meet; this crate's own lines, which call it, are only tested.
#![deny(missing_docs)]
#![deny(unsafe_op_in_unsafe_fn)]

mod raw;

use std::fmt;

/// What a job writes, and the limit that it met, if it met one.
#[derive(Clone, Debug, PartialEq, Eq)]
pub struct Reply {
    /// The lines that the program writes.
    pub text: Vec<u8>,
    /// The limit with which the text ends. In a summary, `None`: there the line `limit 1` says that one was met.
    pub limit: Option<Limit>,
}

/// The trace of a script.
pub type Trace = Reply;

/// A limit that was met.
#[derive(Clone, Debug, PartialEq, Eq)]
pub struct Limit {
    /// Its kind, as `docs/SCRIPT.md` names it.
    pub kind: String,
    /// The line of the first thing beyond it.
    pub line: u32,
    /// Its number.
    pub number: u64,
}

/// Why there is no reply.
#[derive(Clone, Debug, PartialEq, Eq)]
pub enum Refusal {
    /// The text isn't a script: where its first fault is.
    Syntax {
        /// From 1.
        line: u32,
        /// From 1.
        column: u32,
    },
    /// A number or a length isn't one that the call takes.
    Usage,
    /// There was too little memory.
    NoMemory,
}

impl fmt::Display for Refusal {
    fn fmt(&self, f: &mut fmt::Formatter<'_>) -> fmt::Result {
        match self {
            Refusal::Syntax { line, column } => {
                write!(f, "line {line}, column {column}: the text isn't a script from here on")
            }
            Refusal::Usage => f.write_str(
                "a tick is from 1 to 1000000, another number from 0 to 1000000; a length is as in 5px or -0.5px",
            ),
            Refusal::NoMemory => f.write_str("out of memory: give a shorter script"),
        }
    }
}

impl std::error::Error for Refusal {}

/// Whether a recorded trace is its script's.
#[derive(Clone, Debug, PartialEq, Eq)]
pub enum Judgement {
    /// It is. The reply has the number of lines, or names the limit of a recording that is too long.
    Equal(Reply),
    /// It isn't. The reply says where and how they first differ.
    Differs(Reply),
}

/// The traces of several pages.
#[derive(Clone, Debug, PartialEq, Eq)]
pub struct Pages {
    /// The lines of the traces, each after the name of its page.
    pub reply: Reply,
    /// Whether each text was a script. Where one isn't, its page has a line `syntax`, or the reply has only such a line.
    pub are_scripts: bool,
}

/// Replays the script, and returns its trace.
///
/// # Errors
/// `Syntax` exactly if the text isn't a script; `NoMemory`.
pub fn replay(script: &[u8]) -> Result<Trace, Refusal> {
    raw::script_job(raw::mifdagus_raw_replay, script)
}

/// Reads the script: `ok` and the number of its commands.
///
/// ```
/// assert_eq!(mifdagus::check(b"script 1\nsay hello\n")?.text, b"ok 1\n");
/// # Ok::<(), mifdagus::Refusal>(())
/// ```
///
/// # Errors
/// As `replay`.
pub fn check(script: &[u8]) -> Result<Reply, Refusal> {
    raw::script_job(raw::mifdagus_raw_check, script)
}

/// Whether the script's resize loops always go deeper (`steady`), and whether none ends with the error (`quiet`).
///
/// ```
/// assert_eq!(mifdagus::lint(b"script 1\n")?.text, b"steady\nquiet\n");
/// # Ok::<(), mifdagus::Refusal>(())
/// ```
///
/// # Errors
/// As `replay`.
pub fn lint(script: &[u8]) -> Result<Reply, Refusal> {
    raw::script_job(raw::mifdagus_raw_lint, script)
}

/// How many lines of each kind the script's trace has.
///
/// # Errors
/// As `replay`.
pub fn summary(script: &[u8]) -> Result<Reply, Refusal> {
    raw::script_job(raw::mifdagus_raw_summary, script)
}

/// The script in its one printed form.
///
/// # Errors
/// As `replay`.
pub fn print(script: &[u8]) -> Result<Reply, Refusal> {
    raw::script_job(raw::mifdagus_raw_print, script)
}

/// Each box at the end of the script's tick of this number, counted from 1.
///
/// ```
/// let boxes = mifdagus::inspect(b"script 1\nblock a top\nappend top a\nset a height 10px\ntick 0\n", 1)?;
/// assert!(boxes.text.starts_with(b"box "));
/// # Ok::<(), mifdagus::Refusal>(())
/// ```
///
/// # Errors
/// As `replay`; `Usage` for a tick that isn't from 1 to 1000000.
pub fn inspect(script: &[u8], tick: u64) -> Result<Reply, Refusal> {
    raw::gather(|room, needed| unsafe {
        // SAFETY: the slices are valid for the call, and the reply's is not shared.
        raw::mifdagus_raw_inspect(tick, script.as_ptr(), script.len(), room.as_mut_ptr(), room.len(), needed)
    })
    .and_then(raw::Answer::into_reply)
}

/// The elements that a point hits at the end of that tick, topmost first. `x` and `y` are lengths such as `5px` or `-0.5px`.
///
/// # Errors
/// As `inspect`; `Usage` for another length.
pub fn hit(script: &[u8], tick: u64, x: &str, y: &str) -> Result<Reply, Refusal> {
    raw::gather(|room, needed| unsafe {
        // SAFETY: as above.
        raw::mifdagus_raw_hit(
            tick, x.as_ptr(), x.len(), y.as_ptr(), y.len(), script.as_ptr(), script.len(), room.as_mut_ptr(), room.len(), needed,
        )
    })
    .and_then(raw::Answer::into_reply)
}

/// Whether the trace that is recorded after the script's line `trace` is the script's.
///
/// ```
/// use mifdagus::Judgement;
/// assert!(matches!(mifdagus::judge(b"script 1\nsay a\ntrace\nsay a\n")?, Judgement::Equal(_)));
/// assert!(matches!(mifdagus::judge(b"script 1\nsay a\ntrace\nsay b\n")?, Judgement::Differs(_)));
/// # Ok::<(), mifdagus::Refusal>(())
/// ```
///
/// # Errors
/// `NoMemory`: a text that isn't a script has a trace too.
pub fn judge(recording: &[u8]) -> Result<Judgement, Refusal> {
    let answer = raw::bytes_job(raw::mifdagus_raw_judge, recording)?;
    let differs = answer.code == raw::DIFFERS;
    let reply = answer.into_reply()?;
    Ok(if differs { Judgement::Differs(reply) } else { Judgement::Equal(reply) })
}

/// The traces of several pages; a line `page NAME` says whose script the next lines belong to.
///
/// # Errors
/// `NoMemory`.
pub fn pages(stream: &[u8]) -> Result<Pages, Refusal> {
    let answer = raw::bytes_job(raw::mifdagus_raw_pages, stream)?;
    let are_scripts = answer.code != raw::SYNTAX;
    Ok(Pages { reply: answer.into_text(), are_scripts })
}

/// The script that is generated from this number.
///
/// ```
/// let script = mifdagus::generate(3)?.text;
/// assert_eq!(mifdagus::summary(&script)?, mifdagus::generate_run(3)?);
/// # Ok::<(), mifdagus::Refusal>(())
/// ```
///
/// # Errors
/// `Usage` for a number above 1000000; `NoMemory`.
pub fn generate(number: u64) -> Result<Reply, Refusal> {
    raw::number_job(raw::mifdagus_raw_generate, number)
}

/// The summary of that script's trace.
///
/// # Errors
/// As `generate`.
pub fn generate_run(number: u64) -> Result<Reply, Refusal> {
    raw::number_job(raw::mifdagus_raw_generate_run, number)
}
