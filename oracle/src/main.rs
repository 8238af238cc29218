//! The oracle: reads request lines on standard input and writes one answer line for each. With the word `sheet` or
//! `variants` it is the program of that name instead: standard input is one sheet, and its report or table is written. With
//! the word `numbers` it writes the report over the sheets whose files are named behind it, or over standard input. With
//! the word `index` it is the program `index`, its words and files behind it.

mod ast;
mod columns;
mod document;
mod index;
mod langtags;
mod layer;
mod parse;
mod places;
mod requests;
mod rows;
mod standins;
mod table_width;
mod totals;
mod variants;

use std::fs::File;
use std::io::{self, BufRead, BufReader, BufWriter, Read, Write};

/// A sheet, as far as it takes to refuse it: one byte above the limit.
fn read_sheet(from: impl Read) -> io::Result<Vec<u8>> {
    let mut text = Vec::new();
    from.take(layer::TEXT_LIMIT as u64 + 1).read_to_end(&mut text)?;
    Ok(text)
}

fn main() -> io::Result<()> {
    let mut input = BufReader::with_capacity(1 << 20, io::stdin().lock());
    let mut output = BufWriter::with_capacity(1 << 20, io::stdout().lock());
    let program: Option<fn(&[u8]) -> Vec<u8>> = match std::env::args().nth(1).as_deref() {
        Some("sheet") => Some(layer::sheet),
        Some("variants") => Some(variants::program),
        _ => None,
    };
    if let Some(program) = program {
        output.write_all(&program(&read_sheet(input)?))?;
        return output.flush();
    }
    if std::env::args().nth(1).as_deref() == Some("numbers") {
        let mut sheets = std::env::args().skip(2).map(|name| read_sheet(File::open(name)?)).collect::<io::Result<Vec<_>>>()?;
        if sheets.is_empty() {
            sheets.push(read_sheet(input)?);
        }
        output.write_all(totals::written(&totals::report(&sheets)).as_bytes())?;
        return output.flush();
    }
    if std::env::args().nth(1).as_deref() == Some("index") {
        let words: Vec<String> = std::env::args().skip(2).collect();
        let made = index::program(&words, |name| std::fs::read(name).expect("a file to read"));
        output.write_all(&made.expect("build SHEET, find INDEX ID or mend A B OLD NEW INDEX"))?;
        return output.flush();
    }
    let mut request = Vec::new();
    let mut answer = Vec::new();
    loop {
        request.clear();
        if input.read_until(b'\n', &mut request)? == 0 {
            break;
        }
        if request.last() == Some(&b'\n') {
            request.pop();
        }
        answer.clear();
        requests::answer(&request, &mut answer);
        answer.push(b'\n');
        output.write_all(&answer)?;
    }
    output.flush()
}
