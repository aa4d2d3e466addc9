//! Checks, reads, writes, compares and judges IDF 3.0 files: board, panel and library.
//!
//! What these functions answer is proved for every input: the work is done by a library written in
//! Rattle, whose contracts say which reply each file gets. They take any bytes and any lent slice,
//! always end, and on a refusal leave what was lent as it was.
//!
//! ```
//! let library = b".HEADER\nLIBRARY_FILE 3 s 2024/05/06.07:08:09 1\n.END_HEADER\n";
//! assert_eq!(quayladle::check(library).done(), Ok(3));
//!
//! let torn = &library[..20];
//! let refusal = quayladle::check(torn).done().unwrap_err();
//! assert_eq!(refusal.line, 2);
//! assert_eq!(refusal.to_string(), "6 number of fields: the line has too few fields or too many");
//! ```
//!
//! # Stack
//!
//! The library has no heap: its tables stand on the stack of the thread that calls it. A call takes
//! 504 KiB of it, however small the files are; [`Reader::next`] takes next to nothing. Threads of
//! the standard library have 2 MiB. A thread that is started with a stack of its own size needs
//! these and 16 KiB for itself:
//!
//! ```
//! let file = b".HEADER\nLIBRARY_FILE 3 s 2024/05/06.07:08:09 1\n.END_HEADER\n";
//! let thread = std::thread::Builder::new().stack_size((504 + 16) << 10);
//! let checking = thread.spawn(|| quayladle::check(file))?;
//! assert_eq!(checking.join().unwrap().done(), Ok(3));
//! # Ok::<(), std::io::Error>(())
//! ```
//!
//! With less the process ends by a signal and without an answer: the library's code touches every
//! page of a large frame in turn, so it meets the guard page below the stack and cannot pass over
//! it. A stack without a guard page has nothing to stop it there.

#![warn(missing_docs)]

mod ffi;
mod reader;
mod refusal;
mod reply;
mod texts;

pub use reader::Reader;
pub use refusal::{Reason, Refusal};
pub use reply::{Reply, Verdict};
pub use texts::text;

/// The largest file, in bytes.
pub const LARGEST_FILE: usize = 16_777_216;

/// How many numbers a record has: its kind, then its fields, and zeros in the columns that it does not use.
pub const WIDTH: usize = 10;

/// Where in a row the number of its line stands, counted from 0.
pub const LINE: usize = 10;

/// How many numbers of a slice a row takes: those of a record, and the line that it came from.
pub const STRIDE: usize = 11;

/// One record of a file and its line: the kind, then the fields, a text by its start and length in the file ([`text()`]
/// gives it), and behind these the line that the record came from, from 1; comments and blank lines are counted too.
pub type Row = [i64; STRIDE];

/// Checks a file: 0 with the number of its rows, or its first refusal.
///
/// ```
/// let reply = quayladle::check(b".HEADER\nBOARD_FILE 3.0 s 10/22/96.16:20:19 1\n");
/// assert_eq!((reply.number, reply.line, reply.count), (9, 2, 0));
/// ```
pub fn check(file: &[u8]) -> Reply {
    ffi::check(file).into()
}

/// Reads a file's rows, eleven numbers each, from the front of the lent slice on.
///
/// It answers as [`check`] does, but with 2 and the number of rows where too few are lent. Numbers
/// behind the last row keep their values, and all do on a refusal.
///
/// ```
/// let library = b".HEADER\nLIBRARY_FILE 3 s 2024/05/06.07:08:09 1\n.END_HEADER\n";
/// let mut lent = [-1; 34];
/// assert_eq!(quayladle::read(library, &mut lent).done(), Ok(3));
/// assert_eq!(lent[11..22], [11, 2, 300_000, 23, 1, 25, 19, 1, 0, 0, 2]);
/// assert_eq!(lent[33], -1);
/// assert_eq!(quayladle::read(library, &mut lent[..32]).number, 2);
/// ```
pub fn read(file: &[u8], rows: &mut [i64]) -> Reply {
    ffi::read(file, rows).into()
}

/// The rows of an accepted file.
///
/// ```
/// let library = b"# mine\n.HEADER\nLIBRARY_FILE 3 s 2024/05/06.07:08:09 1\n.END_HEADER\n";
/// let rows = quayladle::rows(library)?;
/// let kinds: Vec<i64> = rows.iter().map(|row| row[0]).collect();
/// assert_eq!(kinds, [10, 11, 19]);
/// let lines: Vec<i64> = rows.iter().map(|row| row[quayladle::LINE]).collect();
/// assert_eq!(lines, [2, 3, 4], "the comment is line 1");
/// # Ok::<(), quayladle::Refusal>(())
/// ```
pub fn rows(file: &[u8]) -> Result<Vec<Row>, Refusal> {
    // A guess spares most files a second reading; where it is short, the refusal says what is needed.
    let guess = (file.len() / 16 + 1) * STRIDE;
    let numbers = match read_into(file, guess) {
        Err(Refusal { reason: Reason::FewRows, count, .. }) => {
            read_into(file, count as usize * STRIDE)?
        }
        other => other?,
    };
    let row = |numbers: &[i64]| std::array::from_fn(|column| numbers[column]);
    Ok(numbers.chunks_exact(STRIDE).map(row).collect())
}

/// The numbers of a file's rows, if there are no more than the room is for.
fn read_into(file: &[u8], room: usize) -> Result<Vec<i64>, Refusal> {
    let mut numbers = vec![0; room];
    let count = read(file, &mut numbers).done()?;
    numbers.truncate(count as usize * STRIDE);
    Ok(numbers)
}

/// Writes the canonical text of rows, eleven numbers each, from the front of the lent buffer on.
///
/// The rows' texts stand in `text`. It answers 0 with the number of bytes; 15 where the rows say no
/// acceptable file, or their lines do not rise from row to row, the first being 1 or more; 1 where
/// the text is over the limit; and 14 with the bytes needed where too few are lent. The lines need
/// not be those of any file. Bytes behind the text keep their values, and all do on a refusal.
///
/// ```
/// let library = b".HEADER\nLIBRARY_FILE 3 s 2024/05/06.07:08:09 1\n.END_HEADER\n";
/// let mut rows = [0; 33];
/// quayladle::read(library, &mut rows);
/// let mut lent = [b'?'; 62];
/// assert_eq!(quayladle::write(&rows, library, &mut lent[..60]).done().unwrap_err().count, 61);
/// assert_eq!(quayladle::write(&rows, library, &mut lent).done(), Ok(61));
/// assert_eq!(&lent, b".HEADER\nLIBRARY_FILE 3.0 s 2024/05/06.07:08:09 1\n.END_HEADER\n?");
/// rows[quayladle::LINE] = 2;
/// assert_eq!(quayladle::write(&rows, library, &mut lent).number, 15, "line 2 comes twice");
/// ```
pub fn write(rows: &[i64], text: &[u8], out: &mut [u8]) -> Reply {
    ffi::write(rows, text, out).into()
}

/// The canonical text of rows, eleven numbers each, as [`write()`] gives it.
///
/// ```
/// assert!(quayladle::text_of(&[], b"").is_err(), "no rows are no file");
/// ```
pub fn text_of(rows: &[i64], text: &[u8]) -> Result<Vec<u8>, Refusal> {
    // As for rows: most lines are shorter than this, and if not, the refusal says what is needed.
    let guess = rows.len() / STRIDE * 64;
    match write_into(rows, text, guess) {
        Err(Refusal { reason: Reason::ShortText, count, .. }) => {
            write_into(rows, text, count as usize)
        }
        other => other,
    }
}

/// The canonical text of rows, if it has no more bytes than the room is for.
fn write_into(rows: &[i64], text: &[u8], room: usize) -> Result<Vec<u8>, Refusal> {
    let mut out = vec![0; room];
    let count = write(rows, text, &mut out).done()?;
    out.truncate(count as usize);
    Ok(out)
}

/// The canonical text of an accepted file; refused like the file, or with 1 if it is too long.
///
/// ```
/// let library = b"# mine\n.header\nLIBRARY_FILE 3 \"s\" 2024/05/06.07:08:09 +01\n.end_header";
/// let text = b".HEADER\nLIBRARY_FILE 3.0 s 2024/05/06.07:08:09 1\n.END_HEADER\n";
/// assert_eq!(quayladle::canon(library)?, text);
/// # Ok::<(), quayladle::Refusal>(())
/// ```
pub fn canon(file: &[u8]) -> Result<Vec<u8>, Refusal> {
    text_of(&rows(file)?.concat(), file)
}

/// Compares two files: a count of 1 where both say the same list of records, else of 0.
///
/// ```
/// let library = b".HEADER\nLIBRARY_FILE 3 s 2024/05/06.07:08:09 1\n.END_HEADER\n";
/// let respaced = b"# a copy\n.header\nLIBRARY_FILE  3.0 \"s\" 2024/05/06.07:08:09 +01\n.end_header";
/// assert_eq!(quayladle::same(library, respaced).reply.done(), Ok(1));
/// assert_eq!(quayladle::same(library, b"").which, 2);
/// ```
pub fn same(first: &[u8], second: &[u8]) -> Verdict {
    ffi::same(first, second).into()
}

/// Judges a board or panel by a library: the number of placements where each has its entry.
///
/// ```
/// let library = b".HEADER\nLIBRARY_FILE 3 s 2024/05/06.07:08:09 1\n.END_HEADER\n";
/// let verdict = quayladle::judge(library, library);
/// assert_eq!((verdict.reply.number, verdict.which), (17, 1));
/// ```
pub fn judge(board: &[u8], library: &[u8]) -> Verdict {
    ffi::judge(board, library).into()
}
