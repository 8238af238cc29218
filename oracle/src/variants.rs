//! The variant reader of document 02's change request 1: which valve turns which wheel of which variant. The blocks of a
//! sheet and their sets come from the layer, so from the original; the table is filled here, after the document's words.

use crate::layer::{self, Number};
use std::collections::{BTreeMap, HashSet};
use std::ops::RangeInclusive;
use std::sync::OnceLock;

/// The wheels by the words that a block names them with, in the order in which a row has them.
const WHEELS: [&str; 4] = ["front-left", "front-right", "rear-left", "rear-right"];
/// How many variants there are; they count from 1.
const VARIANTS: usize = 30;

/// The valve of each wheel of each variant, where one was named.
pub type Table = [[Option<usize>; WHEELS.len()]; VARIANTS];

/// Why no table is handed out, and where: the block's first line and line count, 0 and 0 where it isn't one block's
/// fault, and for 21 the first variant with a valve at two wheels, else 0.
#[derive(Debug, PartialEq)]
pub struct Refusal {
    pub number: Number,
    first: usize,
    count: usize,
    variant: usize,
}

fn refused(number: Number) -> Refusal {
    Refusal { number, first: 0, count: 0, variant: 0 }
}

/// What a block sets; the variant and the wheel count from 0 here.
#[derive(Clone, Copy)]
struct Setting {
    variant: usize,
    wheel: usize,
    valve: usize,
}

/// All allowed spellings of these numbers: decimal, no leading zero.
fn spellings(numbers: RangeInclusive<usize>) -> Vec<String> {
    numbers.map(|number| number.to_string()).collect()
}

/// Which of the allowed spellings the value is, byte for byte.
fn which<T: AsRef<str>>(allowed: &[T], value: &str) -> Option<usize> {
    allowed.iter().position(|spelling| spelling.as_ref() == value)
}

/// The setting of a block with these values, unescaped; None where it has none of the three keys, 20 where it has one or
/// two of them or a value that isn't allowed.
fn setting(values: &BTreeMap<String, String>) -> Result<Option<Setting>, Number> {
    static ALLOWED: OnceLock<[Vec<String>; 2]> = OnceLock::new();
    let [variants, valves] = ALLOWED.get_or_init(|| [spellings(1..=VARIANTS), spellings(0..=255)]);
    let [variant, wheel, valve] = ["variant", "wheel", "valve"].map(|key| values.get(key));
    match (variant, wheel, valve) {
        (None, None, None) => Ok(None),
        (Some(variant), Some(wheel), Some(valve)) => {
            let found = (which(variants, variant), which(&WHEELS, wheel), which(valves, valve));
            let (Some(variant), Some(wheel), Some(valve)) = found else {
                return Err(20);
            };
            Ok(Some(Setting { variant, wheel, valve }))
        }
        _ => Err(20),
    }
}

/// The table of a sheet, with a join buffer of `cap` bytes. 1 and 2 come first, then 9 for a buffer shorter than whole
/// sheets need, then the first block that is refused, by 6, 7 or 20, and last 21.
pub fn table(bytes: &[u8], cap: usize) -> Result<Table, Refusal> {
    let blocks = layer::blocks(bytes).map_err(refused)?;
    if cap < layer::TEXT_LIMIT {
        return Err(refused(9));
    }
    let mut settings = Vec::new();
    for block in blocks {
        match block.read.and_then(|attrs| setting(&attrs.key_values)) {
            Ok(found) => settings.extend(found),
            Err(number) => return Err(Refusal { number, first: block.first, count: block.count, variant: 0 }),
        }
    }
    let mut table: Table = Default::default();
    for setting in &settings {
        table[setting.variant][setting.wheel] = Some(setting.valve);
    }
    last_counts(&table, &settings);
    match table.iter().position(has_pair) {
        Some(variant) => Err(Refusal { variant: variant + 1, ..refused(21) }),
        None => Ok(table),
    }
}

/// Each cell has the valve of the last block for it, and one that no block names has none.
fn last_counts(table: &Table, settings: &[Setting]) {
    for (variant, row) in table.iter().enumerate() {
        let of_variant: Vec<&Setting> = settings.iter().filter(|setting| setting.variant == variant).collect();
        for (wheel, &cell) in row.iter().enumerate() {
            let last = of_variant.iter().rfind(|setting| setting.wheel == wheel);
            assert_eq!(cell, last.map(|setting| setting.valve), "the last block of a variant and wheel counts");
        }
    }
}

/// Whether one valve stands at two wheels of the row; unfilled cells don't count.
fn has_pair(row: &[Option<usize>; WHEELS.len()]) -> bool {
    let mut pairs = (0..row.len()).flat_map(|a| (0..a).map(move |b| (a, b)));
    let found = pairs.any(|(a, b)| row[a].is_some() && row[a] == row[b]);
    let filled: Vec<usize> = row.iter().flatten().copied().collect();
    let distinct: HashSet<usize> = filled.iter().copied().collect();
    assert_eq!(found, distinct.len() < filled.len(), "a pair makes fewer valves than wheels that have one");
    found
}

/// A cell as it is written.
pub fn cell(valve: Option<usize>) -> String {
    valve.map_or("-".to_string(), |valve| valve.to_string())
}

/// What the program `variants` writes for a sheet: a line for each variant, or one line that says why not.
pub fn program(bytes: &[u8]) -> Vec<u8> {
    match table(bytes, layer::TEXT_LIMIT) {
        Ok(table) => {
            let lines = table.iter().enumerate().map(|(n, row)| format!("{}\t{}\n", n + 1, row.map(cell).join("\t")));
            lines.collect::<String>().into_bytes()
        }
        Err(Refusal { number, first, count, variant }) => {
            let behind = if number == 21 { format!("\t{variant}") } else { String::new() };
            format!("refused\t{first}\t{count}\t{number}{behind}\n").into_bytes()
        }
    }
}
