//! Same answers: runs a program once for every journal of a stream, and sets
//! its listing beside the yardstick's.
//!
//!   driver YARDSTICK PROGRAM DIR < stream
//!
//! The stream is what `generate SEED COUNT` writes. The yardstick is asked
//! through its `--many` mode, the program through a process of its own for each
//! journal, on two threads. Journals with different listings go to DIR as
//! difference-N.journal, N being the place in the stream, each beside the two
//! listings. Exit 1 if there was a difference.

use std::collections::BTreeMap;
use std::io::{self, BufReader, ErrorKind, Read, Write};
use std::process::{Child, Command, ExitCode, ExitStatus, Stdio};
use std::sync::Mutex;
use std::thread;

const THREADS: usize = 2;
const MOST_KEPT: usize = 20;

/// The journals still to come, and how many were taken.
struct Stream<R> {
    input: R,
    taken: usize,
}

impl<R: Read> Stream<R> {
    fn take(&mut self) -> io::Result<Option<(usize, Vec<u8>)>> {
        match read_block(&mut self.input) {
            Err(error) if error.kind() == ErrorKind::UnexpectedEof => Ok(None),
            other => {
                self.taken += 1;
                Ok(Some((self.taken, other?)))
            }
        }
    }
}

fn read_block(input: &mut impl Read) -> io::Result<Vec<u8>> {
    let mut length = [0; 4];
    input.read_exact(&mut length)?;
    let mut block = vec![0; u32::from_le_bytes(length) as usize];
    input.read_exact(&mut block)?;
    Ok(block)
}

/// What was seen: journals by how their listing ends, rows, differences.
#[derive(Default)]
struct Tally {
    ends: BTreeMap<u32, usize>,
    rows: usize,
    differences: usize,
}

/// The refusal on a listing's last line, or 0.
fn refusal(listing: &[u8]) -> u32 {
    let text = String::from_utf8_lossy(listing);
    let last = text.lines().last().unwrap_or_default();
    last.strip_prefix("refused,")
        .and_then(|number| number.parse().ok())
        .unwrap_or(0)
}

fn ask(yardstick: &mut Child, journal: &[u8]) -> io::Result<Vec<u8>> {
    let input = yardstick.stdin.as_mut().expect("piped");
    input.write_all(&(journal.len() as u32).to_le_bytes())?;
    input.write_all(journal)?;
    read_block(yardstick.stdout.as_mut().expect("piped"))
}

/// One process, one journal. A program may stop reading before the end.
fn run(program: &str, journal: &[u8]) -> io::Result<(Vec<u8>, ExitStatus)> {
    let mut child = Command::new(program)
        .stdin(Stdio::piped())
        .stdout(Stdio::piped())
        .spawn()?;
    match child.stdin.take().expect("piped").write_all(journal) {
        Err(error) if error.kind() != ErrorKind::BrokenPipe => return Err(error),
        _ => {}
    }
    let mut listing = Vec::new();
    child
        .stdout
        .take()
        .expect("piped")
        .read_to_end(&mut listing)?;
    Ok((listing, child.wait()?))
}

fn keep(
    directory: &str,
    number: usize,
    journal: &[u8],
    expected: &[u8],
    got: &[u8],
) -> io::Result<()> {
    let path = format!("{directory}/difference-{number}");
    std::fs::write(format!("{path}.journal"), journal)?;
    std::fs::write(format!("{path}.expected.csv"), expected)?;
    std::fs::write(format!("{path}.got.csv"), got)?;
    println!("journal {number} differs, kept as {path}.journal");
    Ok(())
}

fn work<R: Read>(
    names: &[String],
    stream: &Mutex<Stream<R>>,
    tally: &Mutex<Tally>,
) -> io::Result<()> {
    let [yardstick, program, directory] = names else {
        unreachable!()
    };
    let mut yardstick = Command::new(yardstick)
        .arg("--many")
        .stdin(Stdio::piped())
        .stdout(Stdio::piped())
        .spawn()?;
    loop {
        let next = stream.lock().unwrap().take()?;
        let Some((number, journal)) = next else { break };
        let expected = ask(&mut yardstick, &journal)?;
        let (got, status) = run(program, &journal)?;
        let mut tally = tally.lock().unwrap();
        let end = refusal(&expected);
        *tally.ends.entry(end).or_default() += 1;
        let lines = expected.iter().filter(|&&byte| byte == b'\n').count();
        tally.rows += lines - 1 - usize::from(end != 0);
        // A program ended by a signal has no exit code.
        if got != expected || status.code().is_none() {
            tally.differences += 1;
            if tally.differences <= MOST_KEPT {
                keep(directory, number, &journal, &expected, &got)?;
            }
        }
    }
    drop(yardstick.stdin.take());
    yardstick.wait().map(drop)
}

fn main() -> io::Result<ExitCode> {
    let names: Vec<String> = std::env::args().skip(1).collect();
    if names.len() != 3 {
        return Err(io::Error::other(
            "usage: driver YARDSTICK PROGRAM DIR < stream",
        ));
    }
    let stream = Mutex::new(Stream {
        input: BufReader::new(io::stdin()),
        taken: 0,
    });
    let tally = Mutex::new(Tally::default());
    thread::scope(|scope| {
        let workers: Vec<_> = (0..THREADS)
            .map(|_| scope.spawn(|| work(&names, &stream, &tally)))
            .collect();
        workers
            .into_iter()
            .try_for_each(|worker| worker.join().expect("a worker panicked"))
    })?;
    let tally = tally.into_inner().unwrap();
    println!("{} rows; journals by refusal (0: none):", tally.rows);
    let ends: Vec<String> = tally
        .ends
        .iter()
        .map(|(end, count)| format!("{end}: {count}"))
        .collect();
    println!("{}", ends.join(", "));
    println!(
        "{} journals, {} differences",
        stream.into_inner().unwrap().taken,
        tally.differences
    );
    Ok(if tally.differences == 0 {
        ExitCode::SUCCESS
    } else {
        ExitCode::FAILURE
    })
}
