//! Asks both drivers the commands on standard input and compares their answers: `compare ORACLE PORT`,
//! two programs that speak the protocol at the top of oracle.rs.
//!
//! Prints the first differing commands with both answers, how many answers were the same by document
//! 01's number, and how many commands were compared, outside the domain, and differing. Ends with 1
//! if any differ, with 2 if a driver could not be asked.
use std::io::{BufRead, Error, Result, Write, stdin};
use std::process::{Command, ExitCode, Stdio};
use std::thread;
use tools::judge::{Count, Verdict, judge};

/// As many commands, or bytes of them, go through both drivers at a time.
const CHUNK_LINES: usize = 50_000;
const CHUNK_BYTES: usize = 16 << 20;
/// Of the differing commands, as many are shown, and so much of each line.
const SHOWN: u64 = 20;
const SHOWN_BYTES: usize = 400;

fn main() -> ExitCode {
    let names: Vec<String> = std::env::args().skip(1).collect();
    let [oracle, port] = &names[..] else {
        eprintln!("usage: compare ORACLE PORT < LIST");
        return ExitCode::from(2);
    };
    match run(oracle, port) {
        Ok(count) => {
            println!("{count}");
            ExitCode::from(u8::from(count.differ > 0))
        }
        Err(error) => {
            eprintln!("compare: {error}");
            ExitCode::from(2)
        }
    }
}

fn run(oracle: &str, port: &str) -> Result<Count> {
    let mut count = Count::default();
    let mut input = stdin().lock();
    loop {
        let commands = chunk(&mut input)?;
        if commands.is_empty() {
            return Ok(count);
        }
        let (rust, ours) = thread::scope(|scope| {
            let rust = scope.spawn(|| answers(oracle, &commands));
            let ours = answers(port, &commands);
            (rust.join().expect("the thread does not panic"), ours)
        });
        tally(&mut count, &commands, &rust?, &ours?);
    }
}

/// Some next lines of the list; none at its end.
fn chunk(input: &mut impl BufRead) -> Result<String> {
    let mut text = String::new();
    for _ in 0..CHUNK_LINES {
        if text.len() > CHUNK_BYTES || input.read_line(&mut text)? == 0 {
            break;
        }
    }
    Ok(text)
}

/// What a driver answers. It is started for each chunk, so that one that falls is found near its
/// last command.
fn answers(driver: &str, commands: &str) -> Result<String> {
    let mut child = Command::new(driver)
        .stdin(Stdio::piped())
        .stdout(Stdio::piped())
        .spawn()
        .map_err(|e| Error::other(format!("{driver}: {e}")))?;
    let mut to = child.stdin.take().expect("it is piped");
    let output = thread::scope(|scope| {
        // A driver that fell reads no more; its missing answers say so.
        scope.spawn(move || to.write_all(commands.as_bytes()));
        child.wait_with_output()
    })?;
    String::from_utf8(output.stdout).map_err(Error::other)
}

fn tally(count: &mut Count, commands: &str, oracle: &str, port: &str) {
    let (mut rust, mut ours) = (oracle.lines(), port.lines());
    for command in commands.lines().map(str::trim) {
        let missing = "(no answer)";
        let (rust, ours) = (
            rust.next().unwrap_or(missing),
            ours.next().unwrap_or(missing),
        );
        let verdict = match missing {
            _ if rust == missing || ours == missing => Verdict::Differ,
            _ => judge(command, rust, ours),
        };
        if verdict == Verdict::Differ && count.differ < SHOWN {
            for (side, line) in [("differ", command), ("  Rust", rust), ("  port", ours)] {
                println!("{side}: {}", &line[..line.len().min(SHOWN_BYTES)]);
            }
        }
        count.add(verdict);
    }
}
