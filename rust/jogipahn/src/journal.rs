//! Tables kept in a file, one appended after another, that survives a cut after any byte.
//!
//! A record is a table's text and a trailer of six bytes that points back. A cut leaves either the former table
//! readable or the new one, and the new one exactly when its last byte is there. [`Journal`] is such a file;
//! [`last`] and [`record`] are for whoever keeps the bytes elsewhere.

use std::fmt;
use std::fs::{File, OpenOptions};
use std::io::{self, Read, Seek, SeekFrom, Write};
use std::ops::Range;
use std::path::Path;

use crate::error::unknown;
use crate::{raw, Error, Refused};

/// The most bytes of a record: a text and its trailer.
const RECORD_MAX: usize = crate::TEXT_MAX + 6;

/// How many bytes of a file's end are read first.
const TAIL: u64 = 4 * RECORD_MAX as u64;

/// The text of the last table in a journal's bytes, or none.
///
/// ```
/// use jogipahn::journal::{last, record};
///
/// let mut book = record("0 0 0 0 0 0\n")?;
/// let next = record("0 0 0 0 0 0\n1 0 0 7 0 0\n")?;
/// book.extend(&next[..next.len() - 1]);
/// assert_eq!(last(&book), Some(&b"0 0 0 0 0 0\n"[..]));
/// assert_eq!(last(b""), None);
/// # Ok::<(), jogipahn::Refused>(())
/// ```
#[doc(alias = "jogipahn_journal_last")]
pub fn last(book: &[u8]) -> Option<&[u8]> {
    book.get(place(book)?)
}

/// Where the text of the last table stands.
fn place(book: &[u8]) -> Option<Range<usize>> {
    let mut start = 0;
    let answer = raw::journal_last(book, &mut start);
    match usize::try_from(answer) {
        Ok(0) => None,
        Ok(length) => Some(start..start + length),
        Err(_) => unknown(answer),
    }
}

/// The bytes that an append of a text writes, all behind the end of the journal.
///
/// ```
/// use jogipahn::journal::record;
///
/// assert_eq!(record("0 0 0 0 0 0\n")?[12..], [255, 12, 0, 0, 0, 254]);
/// assert_eq!(record("0 0 0 0 0 0").unwrap_err().error.number(), 19);
/// # Ok::<(), jogipahn::Refused>(())
/// ```
///
/// # Errors
///
/// 19, with the first bad line from 0; 0 for a text of no bytes or above [`TEXT_MAX`](crate::TEXT_MAX). Whether the
/// table can be converted is not asked.
#[doc(alias = "jogipahn_journal_record")]
pub fn record(text: impl AsRef<[u8]>) -> Result<Vec<u8>, Refused> {
    let mut out = vec![0; RECORD_MAX];
    let answer = raw::journal_record(text.as_ref(), &mut out);
    if let Ok(length) = usize::try_from(answer) {
        out.truncate(length);
        return Ok(out);
    }
    match usize::try_from(-1900 - i128::from(answer)) {
        Ok(line) => Err(Refused {
            error: Error::TextNotAllowed,
            entry: line,
        }),
        Err(_) => unknown(answer),
    }
}

/// A file of tables.
///
/// The file is for one writer at a time.
///
/// ```
/// use jogipahn::journal::Journal;
/// use jogipahn::Table;
///
/// let path = std::env::temp_dir().join(format!("jogipahn-{}.journal", std::process::id()));
/// let mut table = Table::new();
/// table.bottom();
///
/// let mut journal = Journal::open(&path)?;
/// assert_eq!(journal.last()?, None);
/// journal.append(table.to_string())?;
/// assert_eq!(journal.last()?, Some(table.to_string()));
/// # std::fs::remove_file(path)?;
/// # Ok::<(), Box<dyn std::error::Error>>(())
/// ```
#[derive(Debug)]
pub struct Journal {
    file: File,
}

impl Journal {
    /// Opens a journal, and makes an empty one where there is none.
    ///
    /// ```
    /// use jogipahn::journal::Journal;
    ///
    /// assert!(Journal::open(std::env::temp_dir().join("no/such/folder")).is_err());
    /// ```
    ///
    /// # Errors
    ///
    /// Those of the file system.
    pub fn open(path: impl AsRef<Path>) -> io::Result<Journal> {
        let mut options = OpenOptions::new();
        let file = options.read(true).append(true).create(true).open(path)?;
        Ok(Journal { file })
    }

    /// The text of the last table, or none. It reads the file's end, and more of it only where that has torn appends
    /// alone.
    ///
    /// ```
    /// use jogipahn::journal::Journal;
    ///
    /// # let path = std::env::temp_dir().join(format!("jogipahn-last-{}.journal", std::process::id()));
    /// let mut journal = Journal::open(&path)?;
    /// assert_eq!(journal.last()?, None);
    /// # std::fs::remove_file(path)?;
    /// # Ok::<(), Box<dyn std::error::Error>>(())
    /// ```
    ///
    /// # Errors
    ///
    /// Those of the file system.
    pub fn last(&mut self) -> io::Result<Option<String>> {
        let size = self.file.seek(SeekFrom::End(0))?;
        let mut tail = TAIL;
        loop {
            let mut book = Vec::new();
            self.file.seek(SeekFrom::Start(size.saturating_sub(tail)))?;
            (&self.file).take(size.min(tail)).read_to_end(&mut book)?;
            // Behind as many bytes as the longest text has, no trailer can point back to before what was read.
            if size <= tail || place(&book).is_some_and(|text| text.end >= crate::TEXT_MAX) {
                return Ok(last(&book).map(|text| String::from_utf8_lossy(text).into_owned()));
            }
            tail *= 2;
        }
    }

    /// Appends a table's text, and waits until it is on the disk. A torn end stays where it is, and the record goes
    /// behind it. A text that is refused leaves the file as it is.
    ///
    /// ```
    /// use jogipahn::journal::Journal;
    ///
    /// # let path = std::env::temp_dir().join(format!("jogipahn-append-{}.journal", std::process::id()));
    /// let mut journal = Journal::open(&path)?;
    /// journal.append("0 0 0 0 0 0\n")?;
    /// assert!(journal.append("0 0 0 0 0 0").is_err());
    /// # std::fs::remove_file(path)?;
    /// # Ok::<(), Box<dyn std::error::Error>>(())
    /// ```
    ///
    /// # Errors
    ///
    /// 19, as for [`record`]; those of the file system.
    pub fn append(&mut self, text: impl AsRef<[u8]>) -> Result<(), AppendError> {
        let record = record(text).map_err(AppendError::Refused)?;
        let written = self.file.write_all(&record);
        written
            .and_then(|()| self.file.sync_data())
            .map_err(AppendError::File)
    }
}

/// Why a table was not appended.
#[derive(Debug)]
pub enum AppendError {
    /// The text is refused, and the file is as it was.
    Refused(Refused),
    /// The file could not be written, or only a part of the record.
    File(io::Error),
}

impl fmt::Display for AppendError {
    fn fmt(&self, f: &mut fmt::Formatter<'_>) -> fmt::Result {
        match self {
            AppendError::Refused(refused) => refused.fmt(f),
            AppendError::File(error) => write!(f, "the journal can't be written: {error}"),
        }
    }
}

impl std::error::Error for AppendError {
    fn source(&self) -> Option<&(dyn std::error::Error + 'static)> {
        match self {
            AppendError::Refused(refused) => Some(&refused.error),
            AppendError::File(error) => Some(error),
        }
    }
}
