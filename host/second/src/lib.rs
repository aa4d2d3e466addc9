//! An independent second reader of IDF 3.0 files, written from document 01: it reads, checks,
//! writes, compares and judges, so that the proved reader's replies can be held against another's.
//!
//! It shares no code and no table with the proved reader. Every operation takes time linear in its
//! input (the writer in the rows and in the texts that they name) and panics on none.
//!
//! ```
//! let file = b".HEADER\nLIBRARY_FILE 3 s 2024/05/06.07:08:09 1\n.END_HEADER\n";
//! assert_eq!(second::check(file), second::Reply { number: 0, line: 0, count: 3 });
//! ```

#![forbid(unsafe_code)]
#![warn(missing_docs)]

mod acceptable;
mod bytes;
mod comparing;
mod fields;
mod judging;
mod kinds;
mod loops;
mod numbers;
mod reading;
mod reply;
mod rows;
mod state;
mod viewer;
mod writing;

pub use comparing::same;
pub use judging::judge;
pub use reading::{check, read, rows};
pub use reply::Reply;
pub use rows::{Row, LINE, STRIDE, WIDTH};
pub use viewer::Reader;
pub use writing::{canon, write};
