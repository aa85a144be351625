//! Journals that are cut after any byte.

use std::fs::{read, remove_file, write};
use std::path::PathBuf;

use jogipahn::journal::{last, record, AppendError, Journal};
use jogipahn::{Error, Refused};

const FIRST: &str = "0 0 0 0 0 0\n";
const SECOND: &str = "0 0 0 0 0 0\n1 0 0 7 0 0\n";

#[test]
fn a_cut_leaves_the_former_table_or_the_new_one() -> Result<(), Refused> {
    let (first, second) = (record(FIRST)?, record(SECOND)?);
    for cut in 0..=first.len() {
        let found = (cut == first.len()).then_some(FIRST.as_bytes());
        assert_eq!(last(&first[..cut]), found, "cut after {cut}");

        // The next append goes behind the torn end, and is cut too.
        let torn = &first[..cut];
        for again in 0..=second.len() {
            let book = [torn, &second[..again]].concat();
            let found = if again == second.len() {
                Some(SECOND.as_bytes())
            } else {
                found
            };
            assert_eq!(last(&book), found, "cuts after {cut} and {again}");
        }
    }
    Ok(())
}

#[test]
fn texts_that_are_refused() {
    let long = "0 0 0 0 0 0\n".repeat(342);
    for (text, entry) in [
        ("", 0),
        ("0 0 0 0 0 0", 0),
        ("0 0 0 0 0 0\n1\n", 1),
        (&long, 0),
    ] {
        let refused = Refused {
            error: Error::TextNotAllowed,
            entry,
        };
        assert_eq!(record(text), Err(refused));
    }
    assert_eq!(
        record("0 0 0 0 0 0\n".repeat(341)).map(|record| record.len()),
        Ok(4098)
    );
}

#[test]
fn any_bytes_may_be_a_book() {
    for book in [
        &[255, 1, 0, 0, 0, 254][..],
        &[65, 255, 1, 0, 0, 0, 254],
        &[254; 9],
        &[255; 9],
        &[0; 9],
    ] {
        let found = (book.len() == 7).then_some(&book[..1]);
        assert_eq!(last(book), found);
    }
}

/// A file that is gone when the test is over.
struct Scratch(PathBuf);

impl Drop for Scratch {
    fn drop(&mut self) {
        let _ = remove_file(&self.0);
    }
}

#[test]
fn a_file() -> Result<(), Box<dyn std::error::Error>> {
    let name = format!("jogipahn-test-{}.journal", std::process::id());
    let scratch = Scratch(std::env::temp_dir().join(name));
    let path = &scratch.0;

    assert_eq!(Journal::open(path)?.last()?, None);
    Journal::open(path)?.append(FIRST)?;
    let whole = read(path)?;
    assert_eq!(whole, record(FIRST)?);

    let mut journal = Journal::open(path)?;
    assert_eq!(journal.last()?.as_deref(), Some(FIRST));
    let refused = journal.append("0 0\n");
    assert!(matches!(
        refused,
        Err(AppendError::Refused(Refused { entry: 0, .. }))
    ));
    assert_eq!(read(path)?, whole);

    journal.append(SECOND)?;
    assert_eq!(journal.last()?.as_deref(), Some(SECOND));
    let both = read(path)?;
    write(path, &both[..both.len() - 1])?;
    assert_eq!(Journal::open(path)?.last()?.as_deref(), Some(FIRST));
    Journal::open(path)?.append(SECOND)?;
    assert_eq!(Journal::open(path)?.last()?.as_deref(), Some(SECOND));
    assert_eq!(read(path)?.len(), both.len() - 1 + record(SECOND)?.len());
    Ok(())
}

#[test]
fn a_long_file_is_read_from_its_end() -> Result<(), Box<dyn std::error::Error>> {
    let name = format!("jogipahn-long-{}.journal", std::process::id());
    let scratch = Scratch(std::env::temp_dir().join(name));
    let path = &scratch.0;
    let long = record("0 0 0 0 0 0\n".repeat(341))?;
    let short = record(FIRST)?;
    for last_record in [&long, &short] {
        for torn in (0..40_000).step_by(487) {
            let mut book = short.repeat(2_000);
            book.extend(last_record);
            let tears = long[..long.len() - 1]
                .iter()
                .chain(&short[..short.len() - 1]);
            book.extend(tears.cycle().take(torn));
            write(path, &book)?;
            let text = last(&book).map(|text| String::from_utf8_lossy(text).into_owned());
            assert_eq!(Journal::open(path)?.last()?, text);
        }
    }
    Ok(())
}
