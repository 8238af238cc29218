//! Answers requests `sheet HEX` by starting a program for each, with the text as its standard input.
//!
//!     runner COMMAND WORD...
//!
//! Writes `sheet HEX`, what the program wrote, in the requests' order. A program that can't be started, or doesn't end
//! well, is answered `stopped` and its status. Any other request is answered `error`.

use std::io::{self, BufRead, Read, Write};
use std::process::{Command, Stdio};
use std::sync::atomic::{AtomicUsize, Ordering};
use std::sync::Mutex;
use std::thread;

fn unhex(field: &str) -> Option<Vec<u8>> {
    if field == "-" {
        return Some(Vec::new());
    }
    let pairs = field.as_bytes().chunks(2);
    pairs.map(|pair| u8::from_str_radix(std::str::from_utf8(pair).ok()?, 16).ok()).collect()
}

fn hex(bytes: &[u8]) -> String {
    if bytes.is_empty() {
        return "-".to_string();
    }
    bytes.iter().map(|byte| format!("{byte:02x}")).collect()
}

/// What the program writes for a text that comes in pieces of this size, as it would through a slow pipe.
fn run(words: &[String], text: &[u8], piece: usize) -> io::Result<String> {
    let mut child =
        Command::new(&words[0]).args(&words[1..]).stdin(Stdio::piped()).stdout(Stdio::piped()).spawn()?;
    let mut input = child.stdin.take().expect("a pipe");
    let mut output = child.stdout.take().expect("a pipe");
    let mut wrote = Vec::new();
    thread::scope(|scope| {
        scope.spawn(move || {
            for part in text.chunks(piece) {
                // A text above the limit need not be read to its end.
                if input.write_all(part).is_err() {
                    break;
                }
            }
        });
        output.read_to_end(&mut wrote)
    })?;
    let status = child.wait()?;
    Ok(if status.success() { format!("sheet {}", hex(&wrote)) } else { format!("stopped {status}") })
}

fn answer(words: &[String], request: &str, number: usize) -> String {
    let Some(text) = request.strip_prefix("sheet ").and_then(unhex) else {
        return "error".to_string();
    };
    let piece = [1 << 20, 4096, 1000][number % 3];
    run(words, &text, piece).unwrap_or_else(|error| format!("stopped {error}"))
}

fn main() -> io::Result<()> {
    let words: Vec<String> = std::env::args().skip(1).collect();
    if words.is_empty() {
        eprintln!("runner COMMAND WORD...");
        std::process::exit(2);
    }
    let requests: Vec<String> = io::stdin().lock().lines().collect::<io::Result<_>>()?;
    let answers: Vec<Mutex<String>> = requests.iter().map(|_| Mutex::default()).collect();
    let next = AtomicUsize::new(0);
    thread::scope(|scope| {
        for _ in 0..thread::available_parallelism().map_or(1, usize::from) {
            scope.spawn(|| loop {
                let n = next.fetch_add(1, Ordering::Relaxed);
                let Some(request) = requests.get(n) else { break };
                *answers[n].lock().expect("one writer") = answer(&words, request, n);
            });
        }
    });
    let mut out = io::BufWriter::new(io::stdout().lock());
    for answer in answers {
        writeln!(out, "{}", answer.into_inner().expect("one writer"))?;
    }
    out.flush()
}
