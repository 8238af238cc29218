//! Merges blocks in different groupings, on both sides.
//!
//!     groups COMMAND WORD...
//!
//! Reads triples of lines A, B, C on standard input, in hex, parted by spaces, with a fourth field: `-`, or the number
//! that refuses a step of each grouping. The oracle and the command are asked for A merged with B and that text merged
//! with C, for B merged with C and A merged with that text, and for the three canonical texts back to back as one line;
//! all answers are compared. Where the three sets together are within the limits nothing may be refused, and the three
//! final texts are one, but that a line may be too long. Writes the number of requests compared, and of those that differ
//! or break this, to standard output; the first of them go to standard error.

#[allow(dead_code)]
mod ast;
#[allow(dead_code)]
mod columns;
#[allow(dead_code)]
mod document;
#[allow(dead_code)]
mod index;
#[allow(dead_code)]
mod langtags;
#[allow(dead_code)]
mod layer;
#[allow(dead_code)]
mod parse;
#[allow(dead_code)]
mod places;
#[allow(dead_code)]
mod requests;
#[allow(dead_code)]
mod rows;
#[allow(dead_code)]
mod standins;
#[allow(dead_code)]
mod table_width;
#[allow(dead_code)]
mod totals;
#[allow(dead_code)]
mod variants;

use std::collections::BTreeSet;
use std::io::{self, BufRead, Read, Write};
use std::process::{Command, Stdio};
use std::thread;

/// How many differing answers are shown.
const SHOWN: usize = 10;

/// Three lines in hex, and the number that refuses a step of each grouping, if one must.
struct Triple {
    lines: [String; 3],
    refused: Option<String>,
}

fn unhex(field: &str) -> Vec<u8> {
    let pairs = if field == "-" { "" } else { field }.as_bytes().chunks(2);
    pairs.map(|pair| u8::from_str_radix(std::str::from_utf8(pair).expect("hex"), 16).expect("hex")).collect()
}

/// The request for a merge, the second later: by each of the entries that merge, as the number has it. None of the lines
/// holds an LF, and `merge` has both in one text, so it is asked where they are short.
fn merge(number: usize, first: &str, second: &str) -> String {
    let short = first.len() + second.len() < 100_000;
    match number % 4 {
        0 if short => format!("merge {first} {second}"),
        1 if short => format!("merge_leading {second} {first}"),
        2 => format!("merge2_block {first} {second}"),
        _ => format!("merge2 {first} {second}"),
    }
}

fn line(text: &str) -> String {
    format!("parse_standalone_attrs 1 {text}")
}

/// The canonical text of an answer that has one.
fn canon(answer: &str) -> Option<&str> {
    answer.strip_prefix("ok canon ").filter(|text| !text.starts_with("refused"))
}

/// The requests of the first round: the two inner merges, and each line by itself.
fn first_round(number: usize, [a, b, c]: &[String; 3]) -> [String; 5] {
    [merge(number, a, b), merge(number, b, c), line(a), line(b), line(c)]
}

/// Those of the second, over the texts that the first gave: the two outer merges, and the line of all three. None where a
/// text is missing.
fn second_round(number: usize, [a, _, c]: &[String; 3], answers: &[String]) -> [Option<String>; 3] {
    let texts: Vec<Option<&str>> = answers.iter().map(|answer| canon(answer)).collect();
    let all = texts[2..].iter().copied().collect::<Option<Vec<&str>>>();
    // A request carries no longer line.
    let all = all.map(|texts| texts.concat()).filter(|text| text.len() <= 2 * 65_600);
    [texts[0].map(|ab| merge(number + 1, ab, c)), texts[1].map(|bc| merge(number + 1, a, bc)), all.as_deref().map(line)]
}

/// Whether the merge of all three is within the limits, as it lists: every class counts, each key once. None where one
/// isn't read.
fn within(lines: &[String; 3]) -> Option<bool> {
    let sets: Result<Vec<ast::Attrs>, _> = lines.iter().map(|line| layer::parse_standalone_attrs(&unhex(line), 1)).collect();
    let sets = sets.ok()?;
    let classes: usize = sets.iter().map(|set| set.classes.len()).sum();
    let keys: BTreeSet<&String> = sets.iter().flat_map(|set| set.key_values.keys()).collect();
    Some(classes <= layer::CLASS_LIMIT && keys.len() <= layer::KEY_LIMIT)
}

/// What is wrong about the answers to a triple, if anything is.
fn judged(triple: &Triple, first: &[String], second: &[Option<String>]) -> Option<&'static str> {
    if let Some(number) = &triple.refused {
        let refused = format!("refused {number}");
        let steps = |n: usize| first[n] == refused || second[n].as_ref() == Some(&refused);
        return (!steps(0) || !steps(1)).then_some("above the limit a grouping has no step that is refused with its number");
    }
    if within(&triple.lines) != Some(true) {
        return None;
    }
    if first.iter().any(|answer| answer.starts_with("refused") || answer.starts_with("unread")) {
        return Some("a step is refused within the limits");
    }
    // A text that is too long is no text to go on with.
    if first.iter().any(|answer| canon(answer).is_none()) {
        return None;
    }
    let too_long = second[2].as_ref().map_or(true, |answer| answer == "refused 1");
    let length: usize = first[2..].iter().map(|answer| canon(answer).expect("just seen").len() / 2).sum();
    if too_long != (length > layer::TEXT_LIMIT) {
        return Some("a line is too long that isn't, or isn't that is");
    }
    let finals: BTreeSet<&Option<String>> = second[..if too_long { 2 } else { 3 }].iter().collect();
    if finals.len() != 1 {
        return Some("the groupings come to different texts");
    }
    let one = finals.first().and_then(|answer| answer.as_deref());
    (!one.is_some_and(|answer| answer.starts_with("ok canon "))).then_some("the last step is refused within the limits")
}

/// What the oracle answers.
fn ours(requests: &[String]) -> Vec<String> {
    let answer = |request: &String| {
        let mut out = Vec::new();
        requests::answer(request.as_bytes(), &mut out);
        String::from_utf8(out).expect("an answer is ASCII")
    };
    requests.iter().map(answer).collect()
}

/// What the command answers.
fn theirs(words: &[String], requests: &[String]) -> io::Result<Vec<String>> {
    let mut child = Command::new(&words[0]).args(&words[1..]).stdin(Stdio::piped()).stdout(Stdio::piped()).spawn()?;
    let mut input = io::BufWriter::new(child.stdin.take().expect("a pipe"));
    let mut output = child.stdout.take().expect("a pipe");
    let mut wrote = String::new();
    thread::scope(|scope| {
        scope.spawn(move || requests.iter().try_for_each(|request| writeln!(input, "{request}")));
        output.read_to_string(&mut wrote)
    })?;
    let status = child.wait()?;
    let answers: Vec<String> = wrote.lines().map(str::to_string).collect();
    if !status.success() || answers.len() != requests.len() {
        let (asked, got) = (requests.len(), answers.len());
        return Err(io::Error::other(format!("the Rattle side ended with {status} and answered {got} of {asked} requests")));
    }
    Ok(answers)
}

/// What has been compared so far.
#[derive(Default)]
struct Tally {
    compared: usize,
    differing: usize,
}

impl Tally {
    fn wrong(&mut self, words: &str) {
        self.differing += 1;
        if self.differing <= SHOWN {
            eprintln!("{words}");
        }
    }
    /// Asks both sides, compares, and hands on the oracle's answers.
    fn ask(&mut self, words: &[String], requests: &[String]) -> io::Result<Vec<String>> {
        let (left, right) = (ours(requests), theirs(words, requests)?);
        for ((request, a), b) in requests.iter().zip(&left).zip(&right) {
            self.compared += 1;
            if a != b {
                self.wrong(&format!("request: {request}\n oracle: {a}\n replay: {b}"));
            }
        }
        Ok(left)
    }
}

fn main() -> io::Result<()> {
    let words: Vec<String> = std::env::args().skip(1).collect();
    if words.is_empty() {
        eprintln!("groups COMMAND WORD...");
        std::process::exit(2);
    }
    let mut triples = Vec::new();
    for row in io::stdin().lock().lines() {
        let row = row?;
        let fields: Vec<&str> = row.split(' ').collect();
        let [a, b, c, refused] = fields[..] else { return Err(io::Error::other("not a triple")) };
        let refused = (refused != "-").then(|| refused.to_string());
        triples.push(Triple { lines: [a, b, c].map(str::to_string), refused });
    }
    let mut tally = Tally::default();
    let requests: Vec<String> = triples.iter().enumerate().flat_map(|(n, triple)| first_round(n, &triple.lines)).collect();
    let first = tally.ask(&words, &requests)?;
    let asked: Vec<[Option<String>; 3]> =
        triples.iter().zip(first.chunks(5)).enumerate().map(|(n, (triple, answers))| second_round(n, &triple.lines, answers)).collect();
    let requests: Vec<String> = asked.iter().flatten().flatten().cloned().collect();
    let mut second = tally.ask(&words, &requests)?.into_iter();
    for ((triple, first), asked) in triples.iter().zip(first.chunks(5)).zip(&asked) {
        let second = asked.each_ref().map(|request| request.as_ref().map(|_| second.next().expect("an answer to each request")));
        if let Some(what) = judged(triple, first, &second) {
            tally.wrong(&format!("{what}: {}\n first round: {}\n second round: {second:?}", triple.lines.join(" "), first.join("; ")));
        }
    }
    println!("{} {}", tally.compared, tally.differing);
    Ok(())
}
