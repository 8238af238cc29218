//! Holds two files of answers against each other, line by line.
//!
//!     differ REQUESTS ORACLE REPLAY SHOW
//!
//! Writes the first SHOW differing requests with both answers to standard error and `LINES DIFFERING` to standard output.
//! A side that answers fewer or more lines than were asked is told on standard error, and the exit status is 1.

use std::fs::File;
use std::io::{self, BufRead, BufReader};

/// The next line without its LF, or None at the end.
fn next(from: &mut BufReader<File>, line: &mut Vec<u8>) -> io::Result<bool> {
    line.clear();
    let got = from.read_until(b'\n', line)? > 0;
    if line.last() == Some(&b'\n') {
        line.pop();
    }
    Ok(got)
}

fn main() -> io::Result<()> {
    let words: Vec<String> = std::env::args().collect();
    let open = |n: usize| File::open(&words[n]).map(|file| BufReader::with_capacity(1 << 20, file));
    let (mut requests, mut left, mut right) = (open(1)?, open(2)?, open(3)?);
    let show: u64 = words[4].parse().expect("a number");
    let (mut request, mut a, mut b) = (Vec::new(), Vec::new(), Vec::new());
    let (mut lines, mut differing) = (0u64, 0u64);
    let mut dropped = false;
    loop {
        let asked = next(&mut requests, &mut request)?;
        let by_left = next(&mut left, &mut a)?;
        let by_right = next(&mut right, &mut b)?;
        if asked != by_left || asked != by_right {
            let which = |got: bool| if got == asked { "as many lines as asked" } else if asked { "fewer" } else { "more" };
            eprintln!("after {lines} lines: the oracle wrote {}, replay {}", which(by_left), which(by_right));
            if asked {
                eprintln!("the request there: {}", String::from_utf8_lossy(&request));
            }
            dropped = true;
            break;
        }
        if !asked {
            break;
        }
        lines += 1;
        if a != b {
            differing += 1;
            if differing <= show {
                let shown = [&request, &a, &b].map(|line| String::from_utf8_lossy(line).into_owned());
                eprintln!("request: {}\n oracle: {}\n replay: {}", shown[0], shown[1], shown[2]);
            }
        }
    }
    println!("{lines} {differing}");
    std::process::exit(i32::from(dropped))
}
