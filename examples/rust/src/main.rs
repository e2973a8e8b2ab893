//! Plays a session: reads an image of 512 bytes and then calls of 16 bytes each, and prints the three numbers of the load and of each call, a line each, as
//! the desk does.
//!
//! usage: `session [--lowest] [--since] FILE`, in any order, with `-` for the standard input. Exit status: 0 the session was played, 1 the image was refused,
//! 2 something could not be read or written, or bad usage.
//!
//! With `--lowest` grants go by the lowest start: the old program, for recordings made before document 02's E8.
//!
//! With `--since` the readings that a call has changed stand behind its numbers, in the order of the task blocks: `4@17` where the task of block 4 waits since
//! the clock read 17, `4@0` where it waits no more.

use khilzurgee::{Answer, Station, Task};
use std::io::{self, BufWriter, Read, Write};
use std::process::ExitCode;

/// What the words of the command ask for.
#[derive(Default)]
struct Wishes {
    lowest: bool,
    since: bool,
}

/// The wishes and FILE: the words come in any order, each at most once. `None` where they are not such.
fn read_wishes(words: impl Iterator<Item = String>) -> Option<(Wishes, String)> {
    let mut wishes = Wishes::default();
    let mut file = None;
    for word in words {
        match word.as_str() {
            "--lowest" if !wishes.lowest => wishes.lowest = true,
            "--since" if !wishes.since => wishes.since = true,
            name if !name.starts_with("--") && file.is_none() => file = Some(word),
            _ => return None,
        }
    }
    Some((wishes, file?))
}

fn read(name: &str) -> io::Result<Vec<u8>> {
    if name != "-" {
        return std::fs::read(name);
    }
    let mut bytes = Vec::new();
    io::stdin().read_to_end(&mut bytes)?;
    Ok(bytes)
}

/// The load by the rule that is asked for, and the calls where it is accepted. Fewer than 16 bytes at the end are a call too: it is refused by 10.
fn play(input: &[u8], wishes: &Wishes, out: &mut impl Write) -> io::Result<bool> {
    let (image, calls) = input.split_at(input.len().min(512));
    let loaded = if wishes.lowest { Station::load_lowest(image) } else { Station::load(image) };
    let (refusal, result) = match &loaded {
        Ok(station) => (0, station.tables().directory.modules as u8), // M, 1 to 32
        Err(refusal) => (*refusal, 0),
    };
    writeln!(out, "{}", Answer { refusal, result, running: 0 })?;
    let Ok(mut station) = loaded else {
        return Ok(false);
    };
    for call in calls.chunks(16) {
        let before = station.tables().tasks;
        write!(out, "{}", station.call(call))?;
        if wishes.since {
            write_since(&before, &station.tables().tasks, out)?;
        }
        writeln!(out)?;
    }
    Ok(true)
}

/// The readings that differ between the blocks before a call and after it; slot 0 is none, and is always zero.
fn write_since(before: &[Task], after: &[Task], out: &mut impl Write) -> io::Result<()> {
    for (block, (before, after)) in before.iter().zip(after).enumerate() {
        if after.since != before.since {
            write!(out, " {block}@{}", after.since)?;
        }
    }
    Ok(())
}

fn run(name: &str, wishes: &Wishes) -> io::Result<bool> {
    let mut out = BufWriter::new(io::stdout().lock());
    let accepted = play(&read(name)?, wishes, &mut out)?;
    out.flush()?;
    Ok(accepted)
}

fn main() -> ExitCode {
    let Some((wishes, name)) = read_wishes(std::env::args().skip(1)) else {
        eprintln!("usage: session [--lowest] [--since] FILE (- for the standard input)");
        return ExitCode::from(2);
    };
    match run(&name, &wishes) {
        Ok(true) => ExitCode::SUCCESS,
        Ok(false) => ExitCode::from(1),
        Err(error) => {
            eprintln!("session: {name}: {error}");
            ExitCode::from(2)
        }
    }
}
