//! The program `slots`, which keeps a journal in a file, or the one that
//! `JOURNAL_PROGRAM` names, as `journal_file`, over real files: files that are
//! cut after every byte of an append, a writer that is killed at any moment,
//! and writes that the system cuts short.

use std::env;
use std::fs::{self, File, OpenOptions};
use std::io::Write;
use std::path::{Path, PathBuf};
use std::process::{Child, Command, Output, Stdio};
use std::thread;
use std::time::{Duration, Instant};

use jogipahn_compare::counts::Counts;
use jogipahn_compare::random::Random;
use jogipahn_compare::second::journal::{self, TRAILER};
use jogipahn_compare::second::sheet::sheet;
use jogipahn_compare::texts;

/// The program that keeps the journal, where no other is named.
const SLOTS: &str = concat!(env!("CARGO_MANIFEST_DIR"), "/../../target/bin/slots");

/// So many appends are cut after each of their bytes.
const APPENDS: usize = 100;

/// So many times the writer is killed.
const KILLS: usize = 1_000;

const EMPTY: &[u8] = b"empty book\n";

fn program() -> Command {
    Command::new(env::var_os("JOURNAL_PROGRAM").unwrap_or(SLOTS.into()))
}

/// Whether the program says what to do beside a refusal.
fn advises() -> bool {
    env::var_os("JOURNAL_PROGRAM").is_none()
}

/// A file that does not exist yet.
fn fresh(name: &str) -> PathBuf {
    let folder = Path::new(env!("CARGO_TARGET_TMPDIR")).join("journal_file");
    fs::create_dir_all(&folder).expect("a folder for files");
    let path = folder.join(name);
    let _ = fs::remove_file(&path);
    path
}

fn start_append(path: &Path, text: &[u8]) -> Child {
    let mut writer = program()
        .arg("append")
        .arg(path)
        .stdin(Stdio::piped())
        .stdout(Stdio::piped())
        .stderr(Stdio::piped())
        .spawn()
        .expect("the program starts");
    // A writer that is killed does not read it.
    let _ = writer.stdin.take().expect("its input").write_all(text);
    writer
}

fn append(path: &Path, text: &[u8]) -> Output {
    start_append(path, text)
        .wait_with_output()
        .expect("the program ends")
}

fn append_whole(path: &Path, text: &[u8]) {
    let output = append(path, text);
    assert_eq!(output.stdout, b"appended\n", "{output:?}");
    assert!(output.stderr.is_empty(), "{output:?}");
}

/// What the program prints for the last table. Beside a refusal `slots` says
/// what to do, and else nothing is said.
fn last(path: &Path) -> Vec<u8> {
    let output = program().arg("last").arg(path).output().expect("it runs");
    let refused = output.stdout.starts_with(b"refused ");
    let told = refused && advises();
    assert_eq!(output.stderr.is_empty(), !told, "{output:?}");
    output.stdout
}

fn bytes(path: &Path) -> Vec<u8> {
    fs::read(path).expect("the file is there")
}

fn cut(path: &Path, length: usize) {
    let file = OpenOptions::new().write(true).open(path);
    file.and_then(|file| file.set_len(length as u64))
        .expect("the file is cut");
}

/// A text whose sheet is not the one given, and its sheet.
fn another(random: &mut Random, former: &[u8]) -> (Vec<u8>, Vec<u8>) {
    loop {
        let text = texts::short(random);
        let sheet = sheet(&text);
        if sheet != former {
            return (text, sheet);
        }
    }
}

/// A file is cut after each byte of an append, and the next goes behind what
/// is left: all of it, or a torn end.
#[test]
fn cut_after_every_byte() {
    let path = fresh("cut");
    let mut random = Random::new(10);
    let mut counts = Counts::default();
    let mut former = EMPTY.to_vec();
    let mut torn_in_a_row = 0;
    let mut cuts = 0;
    for _ in 0..APPENDS {
        let before = fs::read(&path).unwrap_or_default();
        let (text, new) = another(&mut random, &former);
        let record = journal::record(&text).expect("a good text");
        append_whole(&path, &text);
        assert_eq!(bytes(&path), [&before[..], &record].concat());
        assert_eq!(last(&path), new);
        counts.add("new");
        for kept in (0..record.len()).rev() {
            cut(&path, before.len() + kept);
            assert_eq!(last(&path), former, "{kept} of {record:?}");
            counts.add(if former == EMPTY { "empty" } else { "former" });
            cuts += 1;
        }
        if random.percent(50) {
            let kept = random.below(record.len());
            fs::write(&path, [&before[..], &record[..kept]].concat()).expect("a torn file");
            torn_in_a_row += 1;
            if torn_in_a_row > 1 {
                counts.add("torn behind torn");
            }
        } else {
            append_whole(&path, &text);
            former = new;
            torn_in_a_row = 0;
        }
    }
    println!("{APPENDS} appends, cut at {cuts} places");
    counts.print();
    counts.assert_each(4, 10);
    counts.assert_least("former", 1_000);
}

/// A writer that is killed leaves the former table or the new one, and the new
/// one wherever it said so.
#[test]
fn killed_at_any_moment() {
    let mut random = Random::new(11);
    let mut counts = Counts::default();
    let mut path = fresh("killed");
    let mut former = EMPTY.to_vec();
    // How long the writer has at most, in microseconds. It is given less after
    // each append that came through and more after each that did not.
    let began = Instant::now();
    append_whole(&fresh("timed"), b"0 0 0 0 0 0\n");
    let mut most = began.elapsed().as_micros() as f64;
    for turn in 0..KILLS {
        if turn % 25 == 0 {
            path = fresh("killed");
            former = EMPTY.to_vec();
        }
        let before = fs::read(&path).unwrap_or_default();
        let (text, new) = another(&mut random, &former);
        let mut writer = start_append(&path, &text);
        thread::sleep(Duration::from_micros(
            random.range(0, most as i64 + 1) as u64
        ));
        let _ = writer.kill();
        let output = writer.wait_with_output().expect("it is over");
        let after = fs::read(&path).unwrap_or_default();
        let record = journal::record(&text).expect("a good text");
        let added = after.strip_prefix(&before[..]).expect("what stood there");
        assert!(record.starts_with(added), "{added:?} of {record:?}");
        let whole = added.len() == record.len();
        let found = last(&path);
        assert_eq!(found, if whole { new } else { former }, "{after:?}");
        assert!(output.stderr.is_empty(), "{output:?}");
        assert!(whole || output.stdout.is_empty(), "{output:?}");
        counts.add(match (whole, &output.stdout[..]) {
            (true, b"appended\n") => "new, and said so",
            (true, _) => "new",
            (false, _) if found == EMPTY => "empty",
            (false, _) => "former",
        });
        former = found;
        most *= if whole { 0.97 } else { 1.03 };
    }
    println!("{KILLS} kills");
    counts.print();
    counts.assert_least("new", 100);
    counts.assert_least("former", 100);
    counts.assert_least("empty", 1);
}

/// The system takes only a part of a write: the program says that the end is
/// torn, and the next append goes behind it.
#[test]
fn short_writes_are_torn_ends() {
    let mut random = Random::new(12);
    let (text, sheet_of_text) = another(&mut random, EMPTY);
    let record = journal::record(&text).expect("a good text");
    let first = journal::record(b"0 0 0 0 0 0\n").expect("a good text");
    let long = journal::record(&b"0 0 0 0 0 0\n".repeat(60)).expect("a good text");
    for taken in 1..record.len() {
        // The limit is one block of 512 bytes, up to which there is a torn end.
        let path = fresh("short");
        let mut book = [&first[..], &long].concat();
        book.truncate(512 - taken);
        fs::write(&path, &book).expect("a file");
        let mut writer = Command::new("sh")
            .args(["-c", "ulimit -f 1; exec \"$0\" append \"$1\""])
            .arg(program().get_program())
            .arg(&path)
            .stdin(Stdio::piped())
            .stdout(Stdio::piped())
            .stderr(Stdio::piped())
            .spawn()
            .expect("a shell");
        let input = writer.stdin.take();
        input
            .expect("its input")
            .write_all(&text)
            .expect("it reads");
        let output = writer.wait_with_output().expect("it ends");
        let told = format!(
            "{}: torn after {taken} of {} bytes\n",
            path.display(),
            record.len()
        );
        assert_eq!(String::from_utf8_lossy(&output.stderr), told);
        assert!(output.stdout.is_empty(), "{output:?}");
        assert_eq!(bytes(&path), [&book[..], &record[..taken]].concat());
        assert_eq!(last(&path), b"1 1 0\n");
        append_whole(&path, &text);
        assert_eq!(last(&path), sheet_of_text);
    }
    println!("{} short writes", record.len() - 1);
}

/// The last table is found wherever the windows of the search end: its trailer
/// lies over their seams, and behind it are torn ends of any length.
#[test]
fn found_over_the_seams_of_windows() {
    let first = journal::record(b"0 0 0 0 0 0\n1 0 0 7 0 0\n").expect("a good text");
    let former = journal::record(b"0 0 0 0 0 0\n").expect("a good text");
    let mut longest = b"0 0 0 0 0 0\n".repeat(340);
    longest.extend(b"0 0 0 0 0 10000\n");
    let torn = journal::record(&longest).expect("a good text");
    let torn = torn[..torn.len() - 1].repeat(6);
    let mut count = 0;
    let seams = [1, 2]
        .into_iter()
        .flat_map(|window| window * 8_187 - 14..window * 8_187 + 14);
    for behind in (0..60).chain([4_093, 4_094, 4_095]).chain(seams) {
        let path = fresh("seams");
        let book = [&torn[..], &former, &first, &torn[..behind]].concat();
        fs::write(&path, book).expect("a file");
        assert_eq!(last(&path), b"1 1 0\n7 1 0 1 1 1 1 1 1\n", "{behind}");
        count += 1;
    }
    let path = fresh("seams");
    fs::write(&path, &torn).expect("a file");
    assert_eq!(last(&path), EMPTY);
    println!("{count} files");
}

/// A file of a terabyte, nearly all of it a hole, is not read through.
#[test]
fn found_behind_a_terabyte() {
    let path = fresh("long");
    let file = File::create(&path).expect("a file");
    file.set_len(1 << 40).expect("a hole");
    append_whole(&path, b"0 0 0 0 0 0\n");
    assert_eq!(last(&path), b"1 1 0\n");
    fs::remove_file(&path).expect("a file");
}

/// A refused text leaves no trace; what the system refuses is told.
#[test]
fn refusals_and_failures() {
    let path = fresh("refused");
    for (text, line) in [
        (&b""[..], 0),
        (b"0 0 0 0 0 0", 0),
        (b"0 0 0 0 0 0\n-0 0 0 0 0 0\n", 1),
        (&b"0 0 0 0 0 0\n".repeat(342), 0),
    ] {
        let output = append(&path, text);
        let told = format!("refused 19 at {line}\n");
        assert_eq!(String::from_utf8_lossy(&output.stdout), told);
        let told = output.stderr.starts_with(b"give lines");
        assert_eq!(told, advises(), "{output:?}");
        assert!(!path.exists());
        assert_eq!(last(&path), EMPTY);
    }
    append_whole(&path, b"0 0 0 0 0 0\n");
    let before = bytes(&path);
    assert_eq!(before.len(), 12 + TRAILER);
    assert_eq!(append(&path, b"1\n").stdout, b"refused 19 at 0\n");
    assert_eq!(bytes(&path), before);
    // A table that conversion refuses may be kept; its sheet is the refusal.
    append_whole(&path, b"9 9 9 9 9 9\n");
    assert_eq!(last(&path), b"refused 5 at 0\n");
    let folder = path.parent().expect("its folder");
    let missing = folder.join("none").join("file");
    for place in [folder, &missing, Path::new("/dev/full")] {
        let output = append(place, b"0 0 0 0 0 0\n");
        assert!(output.stdout.is_empty(), "{output:?}");
        assert!(output
            .stderr
            .starts_with(place.as_os_str().as_encoded_bytes()));
    }
    let output = program().arg("last").arg(folder).output().expect("it runs");
    assert!(output.stdout.is_empty() && !output.stderr.is_empty());
    // Bytes of any other program are answered somehow, and read within bounds.
    let mut random = Random::new(13);
    for _ in 0..100 {
        let soup: Vec<u8> = (0..random.below(20_000))
            .map(|_| random.choose(&[255, 254, 0, 1, 32, 127, 128, 48]))
            .collect();
        fs::write(&path, &soup).expect("a file");
        let expected = match journal::last(&soup) {
            Some(place) => sheet(&soup[place]),
            None => EMPTY.to_vec(),
        };
        assert_eq!(last(&path), expected);
    }
}
