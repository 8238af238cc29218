//! Times the original Rust and the proved code on the same inputs, in one process, alternating. See docs/PERFORMANCE.md.
//!
//!     bench                  the tables
//!     bench stack            the names of the inputs of whole jobs
//!     bench stack INPUT      our side alone, the entries of the tables on that input, for a run under a small stack

#[path = "../../oracle/src/ast.rs"]
mod ast;
mod inputs;
#[path = "original.rs"]
#[allow(dead_code)]
mod parse;
mod ours;
mod sheet;
#[path = "../../oracle/src/standins.rs"]
#[allow(dead_code)]
mod standins;
#[path = "../../oracle/src/table_width.rs"]
#[allow(dead_code)]
mod table_width;

use ours::{Lent, Set};
use parse::attrs::door;
use std::hint::black_box;
use std::time::Instant;

/// For how many seconds the two sides of a row are asked in turn; the best time of each counts.
fn budget() -> f64 {
    std::env::var("SECONDS_A_ROW").ok().and_then(|n| n.parse().ok()).unwrap_or(1.0)
}

/// Seconds of one call, over so many calls.
fn timed(calls: usize, ask: &mut dyn FnMut()) -> f64 {
    let start = Instant::now();
    for _ in 0..calls {
        ask();
    }
    start.elapsed().as_secs_f64() / calls as f64
}

/// The best times of two sides, asked in turn. A round is short, a tenth of a millisecond or a single call, so that some rounds are free of what else
/// the machine does.
fn both(mut one: impl FnMut(), mut other: impl FnMut()) -> (f64, f64) {
    let first = timed(1, &mut one).max(timed(1, &mut other)).max(1e-9);
    let calls = (0.0001 / first).ceil() as usize;
    let (start, budget) = (Instant::now(), budget());
    let mut best = (f64::MAX, f64::MAX);
    let mut rounds = 0;
    while rounds < 3 || start.elapsed().as_secs_f64() < budget {
        best.0 = best.0.min(timed(calls, &mut one));
        best.1 = best.1.min(timed(calls, &mut other));
        rounds += 1;
    }
    best
}

fn row(name: &str, (rust, ours): (f64, f64), goal: f64) {
    let ratio = ours / rust;
    let verdict = if goal == 0.0 { "".into() } else { format!("{goal}, {}", if ratio <= goal { "met" } else { "missed" }) };
    println!("| {name} | {} | {} | {ratio:.3} | {verdict} |", time(rust), time(ours));
}

fn time(seconds: f64) -> String {
    match seconds {
        s if s < 1e-6 => format!("{:.0} ns", s * 1e9),
        s if s < 1e-3 => format!("{:.1} \u{b5}s", s * 1e6),
        s => format!("{:.2} ms", s * 1e3),
    }
}

fn header(title: &str) {
    println!("\n| {title} | Rust | ours | ours / Rust | goal |\n|---|---|---|---|---|");
}

/// The original at a brace, with the place of the last `}` that it asks its caller for.
fn original_at(text: &[u8]) -> Option<(ast::Attrs, usize)> {
    door::read_attrs_at(text, 0, text.iter().rposition(|&b| b == b'}'))
}

fn at_a_brace() {
    header("at a brace");
    let mut set = Set::new();
    let mut m = Lent::new();
    let mut out = Vec::new();
    let ids = inputs::ids();
    let texts: [(&str, &[u8], f64); 4] = [
        ("wheel, 51 bytes", inputs::WHEEL, 0.25),
        ("`{.a}`", inputs::SMALL, 0.8),
        ("names in capitals, 64 bytes", inputs::CAPITALS, 0.0),
        ("6,000 ids", &ids, 0.0),
    ];
    for (name, text, goal) in texts {
        ours::read_set(text, 0, &mut set);
        assert!(set.was_read() && original_at(text).is_some());
        let (number, len) = ours::read_attrs_at(text, 0, &mut m);
        sheet::canonical(&original_at(text).unwrap().0, &mut out);
        assert!(number == 0 && m.out[..len] == out[..], "{name}: canonical texts differ");
        let times = both(|| drop(black_box(original_at(black_box(text)))), || {
            ours::read_set(black_box(text), 0, &mut set);
            black_box(&set);
        });
        row(&format!("`read_attrs_at`, {name}"), times, goal);
        let times = both(
            || {
                out.clear();
                sheet::canonical(&original_at(black_box(text)).unwrap().0, &mut out);
                black_box(&out);
            },
            || {
                black_box(ours::read_attrs_at(black_box(text), 0, &mut m));
            },
        );
        row(&format!("the same, and its canonical text, {name}"), times, 0.0);
        out.clear();
    }
}

/// The second reader beside the first, each with its set left in memory.
fn two_readers() {
    println!("\n| two readers at a brace | first | second | second / first | goal |\n|---|---|---|---|---|");
    let (mut set, mut other) = (Set::new(), Set::new());
    let texts: [(&str, Vec<u8>, f64); 8] = [
        ("wheel, 51 bytes", inputs::WHEEL.to_vec(), 0.7),
        ("`{.a}`", inputs::SMALL.to_vec(), 0.7),
        ("names in capitals, 64 bytes", inputs::CAPITALS.to_vec(), 1.25),
        ("6,000 ids", inputs::ids(), 1.25),
        ("a quoted value of 60 KB", inputs::value(60_000, "\"", ""), 0.4),
        ("a plain value of 60 KB", inputs::value(60_000, "", ""), 0.7),
        ("60 KB, wrong at its last byte", inputs::value(60_000, "\"", "="), 1.25),
        ("60 KB, wrong at once", [b"{=".to_vec(), inputs::value(60_000, "", "")[1..].to_vec()].concat(), 1.25),
    ];
    for (name, text, goal) in texts {
        ours::read_set(&text, 0, &mut set);
        ours::read_set_once(&text, 0, &mut other);
        assert_eq!(set.was_read(), other.was_read(), "{name}");
        let times = both(
            || {
                ours::read_set(black_box(&text), 0, &mut set);
                black_box(&set);
            },
            || {
                ours::read_set_once(black_box(&text), 0, &mut other);
                black_box(&other);
            },
        );
        row(name, times, goal);
    }
    println!("\n| once more the length, 64 KB / 32 KB | first | second | goal |\n|---|---|---|---|");
    for (name, quote, last) in [("a quoted value", "\"", ""), ("a plain value", "", ""), ("wrong at its last byte", "\"", "=")] {
        let (whole, half) = (inputs::value(64_000, quote, last), inputs::value(32_000, quote, last));
        let first = both(|| ours::read_set(black_box(&half), 0, &mut set), || ours::read_set(black_box(&whole), 0, &mut other));
        let second = both(|| ours::read_set_once(black_box(&half), 0, &mut set), || ours::read_set_once(black_box(&whole), 0, &mut other));
        let (first, second) = (first.1 / first.0, second.1 / second.0);
        let met = if first <= 2.5 && second <= 2.5 { "met" } else { "missed" };
        println!("| {name} | {first:.2} | {second:.2} | 2.5, {met} |");
    }
}

/// A payload that is wrong at its last byte, by the first reader, against the same made good.
fn places() {
    println!("\n| where the payload went wrong, 60 KB | made good | wrong at its last byte | wrong / good | goal |\n|---|---|---|---|---|");
    let (mut set, mut other) = (Set::new(), Set::new());
    for (name, quote) in [("a quoted value", "\""), ("a plain value", "")] {
        let (good, wrong) = (inputs::value(60_000, quote, " a"), inputs::value(60_000, quote, " ="));
        ours::read_set(&good, 0, &mut set);
        ours::read_set(&wrong, 0, &mut other);
        assert!(set.was_read() && !other.was_read(), "{name}");
        let times = both(|| ours::read_set(black_box(&good), 0, &mut set), || ours::read_set(black_box(&wrong), 0, &mut other));
        row(name, times, 2.0);
    }
}

fn utf8() {
    header("UTF-8");
    let texts = [
        ("ASCII, 64 KB", inputs::prose(inputs::MAX), 1.3),
        ("mixed text, 64 KB", inputs::mixed(inputs::MAX), 2.0),
        ("typical sheet, 64 KB", inputs::typical(inputs::MAX), 0.0),
    ];
    for (name, text, goal) in texts {
        assert!(ours::is_utf8(&text));
        let times = both(
            || {
                black_box(std::str::from_utf8(black_box(&text)).is_ok());
            },
            || {
                black_box(ours::is_utf8(black_box(&text)));
            },
        );
        row(&format!("`is_utf8`, {name}"), times, goal);
    }
}

/// A line's set in the original, from bytes.
fn original_line(bytes: &[u8], line: usize) -> Option<ast::Attrs> {
    let text = sheet::text_of(bytes).ok()?;
    let attrs = door::parse_standalone_attrs(text.lines().nth(line - 1)?)?;
    sheet::limit_passed(&attrs).is_none().then_some(attrs)
}

fn original_block(bytes: &[u8], line: usize) -> Option<ast::Attrs> {
    let text = sheet::text_of(bytes).ok()?;
    let lines: Vec<&str> = text.lines().skip(line - 1).collect();
    let (attrs, _) = door::parse_standalone_attrs_block(&lines)?;
    sheet::limit_passed(&attrs).is_none().then_some(attrs)
}

fn original_merge(bytes: &[u8], common: usize, variant: usize) -> Option<ast::Attrs> {
    let mut target = original_line(bytes, common);
    door::merge_attrs(&mut target, original_line(bytes, variant)?);
    target.filter(|attrs| sheet::limit_passed(attrs).is_none())
}

/// An entry by line, from bytes to canonical text.
fn by_line() {
    header("by line, to canonical text");
    let mut m = Lent::new();
    let mut out = Vec::new();
    let small = b"{.common supplier=\"Kern\" unit=bar}\n{#v17 .wheel .checked\n variant=17 wheel=front-left\n valve=120}\n{.wheel valve=7 unit=psi}\n";
    let sheet_text = inputs::typical(inputs::MAX);
    type Ask = fn(&[u8]) -> Option<ast::Attrs>;
    type Ours = fn(&[u8], &mut Lent) -> (u8, usize);
    let asks: [(&str, &[u8], Ask, Ours); 6] = [
        ("`parse_standalone_attrs`, 110 bytes", small, |t| original_line(t, 1), |t, m| ours::parse_standalone_attrs(t, 1, m)),
        ("`parse_standalone_attrs_block`, three lines of 110 bytes", small, |t| original_block(t, 2), |t, m| ours::parse_block(t, 2, m)),
        ("merge of two lines, 110 bytes", small, |t| original_merge(t, 1, 5), |t, m| ours::merge_lines(t, 1, 5, m)),
        ("`parse_standalone_attrs`, line 3 of a sheet of 64 KB", &sheet_text, |t| original_line(t, 3), |t, m| ours::parse_standalone_attrs(t, 3, m)),
        ("`parse_standalone_attrs_block`, line 13 of a sheet of 64 KB", &sheet_text, |t| original_block(t, 13), |t, m| ours::parse_block(t, 13, m)),
        ("merge of lines 3 and 6 of a sheet of 64 KB", &sheet_text, |t| original_merge(t, 3, 6), |t, m| ours::merge_lines(t, 3, 6, m)),
    ];
    for (name, text, ask, ours) in asks {
        out.clear();
        sheet::canonical(&ask(text).expect(name), &mut out);
        let (number, len) = ours(text, &mut m);
        assert!(number == 0 && m.out[..len] == out[..], "{name}: canonical texts differ");
        let times = both(
            || {
                out.clear();
                sheet::canonical(&ask(black_box(text)).unwrap(), &mut out);
                black_box(&out);
            },
            || {
                black_box(ours(black_box(text), &mut m));
            },
        );
        row(name, times, 0.0);
    }
}

type Make = fn(usize) -> Vec<u8>;

const SHEETS: [(&str, Make, f64); 4] = [
    ("typical sheet", inputs::typical, 0.3),
    ("`{.a}` on every line", inputs::small_blocks, 0.6),
    ("text without blocks, ASCII", inputs::prose, 3.0),
    ("text without blocks, mixed", inputs::mixed, 3.0),
];

const HOSTILE: [(&str, Make, f64); 10] = [
    ("glued wrapped runs", inputs::glued_runs, 0.0),
    ("one glued run to the end", inputs::one_glued_run, 0.0),
    ("a quoted `}` on every line of one run", inputs::quoted_closes, 0.01),
    ("unclosed openers, one a line", inputs::unclosed_lines, 0.0),
    ("unclosed openers on one line", inputs::unclosed_openers, 0.0),
    ("one unclosed run", inputs::unclosed_run, 0.0),
    ("the longest tag", inputs::longest_tag, 0.0),
    ("13,000 blocks on one line", inputs::one_line, 0.0),
    ("long classes alike but for the last bytes", |size| inputs::alike_classes(inputs::LIMIT, size), 0.0),
    ("long classes with an escape at each byte", |size| inputs::alike_escaped(inputs::LIMIT, size), 0.0),
];

/// Both sides write the same report; it has so many lines.
fn compared(name: &str, text: &[u8], m: &mut Lent) -> usize {
    let mut out = Vec::new();
    sheet::sheet(text, &mut out);
    ours::sheet(text, m);
    assert!(out == m.report, "{name}: reports differ");
    sheet::sheet_once(text, &mut out);
    assert!(out == m.report, "{name}: the Rust that reads once differs");
    out.iter().filter(|&&b| b == b'\n').count()
}

fn whole_job() {
    header("whole job, 64 KB");
    let mut m = Lent::new();
    let mut out = Vec::new();
    let mut once = Vec::new();
    for (name, make, goal) in SHEETS {
        let text = make(inputs::MAX);
        let count = compared(name, &text, &mut m);
        let times = both(
            || {
                sheet::sheet(black_box(&text), &mut out);
                black_box(&out);
            },
            || {
                ours::sheet(black_box(&text), &mut m);
                black_box(&m.report);
            },
        );
        row(&format!("{name} ({count} blocks)"), times, goal);
        let times = both(
            || {
                sheet::sheet_once(black_box(&text), &mut out);
                black_box(&out);
            },
            || {
                ours::sheet(black_box(&text), &mut m);
                black_box(&m.report);
            },
        );
        once.push((name, times));
    }
    println!("\nThe same against a Rust that reads each block once and measures none:");
    header("whole job, 64 KB");
    for (name, times) in once {
        row(name, times, 0.0);
    }
}

fn hostile() {
    println!("\n| hostile, whole job | Rust, 64 KB | ours, 64 KB | ours / Rust | ours, 64 KB / 32 KB | goal |\n|---|---|---|---|---|---|");
    let mut m = Lent::new();
    let mut out = Vec::new();
    for (name, make, goal) in HOSTILE.iter().copied().chain([("13,000 blocks, one a line", inputs::small_blocks as Make, 0.6)]) {
        let text = make(inputs::MAX);
        let half = make(inputs::MAX / 2);
        compared(name, &text, &mut m);
        let mut n = Lent::new();
        let (rust, ours) = both(
            || {
                sheet::sheet(black_box(&text), &mut out);
                black_box(&out);
            },
            || {
                ours::sheet(black_box(&text), &mut m);
                black_box(&m.report);
            },
        );
        let (whole, part) = both(
            || {
                ours::sheet(black_box(&text), &mut m);
                black_box(&m.report);
            },
            || {
                ours::sheet(black_box(&half), &mut n);
                black_box(&n.report);
            },
        );
        let (ratio, growth) = (ours / rust, whole / part);
        let met = growth <= 2.5 && (goal == 0.0 || ratio <= goal);
        let goal = if goal == 0.0 { "2.5".into() } else { format!("2.5 and {goal}") };
        println!("| {name} | {} | {} | {ratio:.4} | {growth:.2} | {goal}, {} |", time(rust), time(ours), if met { "met" } else { "missed" });
    }
}

/// Another answer about whole sheets beside our own report, which reads the same blocks and writes them: at most `goal` of its time, 0 where there is none.
fn beside(name: &str, goal: f64, inputs: &[(&str, Make)], ask: impl Fn(&[u8], &mut Lent) -> u8, good: &[u8]) {
    println!("\n| {name} | our report, 64 KB | {name}, 64 KB | {name} / report | {name}, 64 KB / 32 KB | goal |\n|---|---|---|---|---|---|");
    let (mut m, mut n) = (Lent::new(), Lent::new());
    for &(input, make) in inputs {
        let (text, half) = (make(inputs::MAX), make(inputs::MAX / 2));
        // The sheet is read to its end.
        assert!(good.contains(&ask(&text, &mut m)), "{input}");
        let (report, other) = both(
            || {
                ours::sheet(black_box(&text), &mut m);
                black_box(&m.report);
            },
            || {
                black_box(ask(black_box(&text), &mut n));
            },
        );
        let (whole, part) = both(
            || {
                black_box(ask(black_box(&text), &mut m));
            },
            || {
                black_box(ask(black_box(&half), &mut n));
            },
        );
        let (ratio, growth) = (other / report, whole / part);
        let met = if growth <= 2.5 && (goal == 0.0 || ratio <= goal) { "met" } else { "missed" };
        let goal = if goal == 0.0 { "2.5".into() } else { format!("{goal} and 2.5") };
        println!("| {input} | {} | {} | {ratio:.3} | {growth:.2} | {goal}, {met} |", time(report), time(other));
    }
}

/// The dealers' table, and a sheet fed to a report over all sheets.
fn dealers_and_totals() {
    let settings: (&str, Make) = ("`{variant=1 wheel=front-left valve=1}` on every line", inputs::settings);
    beside("variants", 0.9, &[("typical sheet", inputs::typical), settings], ours::variants, &[0, 21]);
    beside("feed", 1.0, &[("typical sheet", inputs::typical), ("`{.a}` on every line", inputs::small_blocks)], ours::totals, &[0]);
    let hostile: Vec<(&str, Make)> = HOSTILE.iter().map(|&(name, make, _)| (name, make)).collect();
    beside("feed, hostile", 0.0, &hostile, ours::totals, &[0]);
}

/// An index beside a sheet, against our own report on it: built, and an id that no record has looked up in its text and over its rows.
fn indexes() {
    println!("\n| index, 64 KB | our report | build | build / report | look-up in the text | / report | over rows / in the text | build, 64 KB / 32 KB | goal |");
    println!("|---|---|---|---|---|---|---|---|---|");
    let inputs: [(&str, Make, f64, f64); 2] = [("typical sheet", inputs::typical, 2.0, 0.05), ("`{.a}` on every line", inputs::small_blocks, 2.5, 0.1)];
    let (mut m, mut n) = (Lent::new(), Lent::new());
    for (input, make, build_goal, find_goal) in inputs {
        let (text, half) = (make(inputs::MAX), make(inputs::MAX / 2));
        let (number, records, len) = ours::index(&text, &mut m);
        assert_eq!((number, ours::index(&text, &mut n).0), (0, 0), "{input}");
        let id = b"no such id";
        assert_eq!((ours::find(len, id, &mut m), ours::find_row(len, records, id, &mut n)), ((0, 0), (0, 0)), "{input}");
        let (in_text, over_rows) = both(
            || {
                black_box(ours::find(len, black_box(id), &mut m));
            },
            || {
                black_box(ours::find_row(len, records, black_box(id), &mut n));
            },
        );
        let (report, build) = both(
            || {
                ours::sheet(black_box(&text), &mut m);
                black_box(&m.report);
            },
            || {
                black_box(ours::index(black_box(&text), &mut n));
            },
        );
        let (whole, part) = both(
            || {
                black_box(ours::index(black_box(&text), &mut m));
            },
            || {
                black_box(ours::index(black_box(&half), &mut n));
            },
        );
        let (built, found, rows, growth) = (build / report, in_text / report, over_rows / in_text, whole / part);
        let met = if built <= build_goal && found <= find_goal && rows <= 0.5 && growth <= 2.5 { "met" } else { "missed" };
        println!(
            "| {input} | {} | {} | {built:.3} | {} | {found:.3} | {rows:.3} | {growth:.2} | {build_goal}, {find_goal}, 0.5 and 2.5, {met} |",
            time(report), time(build), time(in_text)
        );
    }
}

/// The text with its middle line replaced by one that is longer, and the number of that line.
fn edited(text: &[u8]) -> (Vec<u8>, usize) {
    let lines: Vec<&[u8]> = text.split_inclusive(|&b| b == b'\n').collect();
    let middle = lines.len() / 2;
    let new = [lines[..middle].concat(), b"{#edited k=v}\n".to_vec(), lines[middle + 1..].concat()].concat();
    (new, middle + 1)
}

/// An index mended after one line was replaced, against our own report on the old sheet and against the new one's index built afresh.
fn mends() {
    println!("\n| mend of one line, 64 KB | our report | mend | mend / report | build | mend / build | mend, 64 KB / 32 KB | goal |\n|---|---|---|---|---|---|---|---|");
    let inputs: [(&str, Make, f64, f64); 3] = [
        ("typical sheet", inputs::typical, 1.2, 0.8), ("`{.a}` on every line", inputs::small_blocks, 1.8, 0.8), ("every line indented", inputs::indented, 2.5, 0.0),
    ];
    let (mut m, mut n) = (Lent::new(), Lent::new());
    for (input, make, goal, build_goal) in inputs {
        // An old text, one with a line more, that line, and the old one's index.
        let mut case = |size: usize| {
            let old = make(size - 16);
            let (new, line) = edited(&old);
            let (_, _, len) = ours::index(&old, &mut m);
            let index = m.index[..len].to_vec();
            let (number, _, fresh) = ours::index(&new, &mut m);
            assert_eq!((number, ours::mend(&old, &new, line, &index, &mut n)), (0, (0, fresh)), "{input}");
            assert_eq!(m.index[..fresh], n.index[..fresh], "{input}");
            (old, new, line, index)
        };
        let ((old, new, line, index), (half, half_new, half_line, half_index)) = (case(inputs::MAX), case(inputs::MAX / 2));
        let (report, mend) = both(
            || {
                ours::sheet(black_box(&old), &mut m);
                black_box(&m.report);
            },
            || {
                black_box(ours::mend(black_box(&old), black_box(&new), line, &index, &mut n));
            },
        );
        let (build, again) = both(
            || {
                black_box(ours::index(black_box(&new), &mut m));
            },
            || {
                black_box(ours::mend(black_box(&old), black_box(&new), line, &index, &mut n));
            },
        );
        let (whole, part) = both(
            || {
                black_box(ours::mend(black_box(&old), black_box(&new), line, &index, &mut m));
            },
            || {
                black_box(ours::mend(black_box(&half), black_box(&half_new), half_line, &half_index, &mut n));
            },
        );
        let (ratio, of_build, growth) = (mend / report, again / build, whole / part);
        let met = if ratio <= goal && (build_goal == 0.0 || of_build <= build_goal) && growth <= 2.5 { "met" } else { "missed" };
        let goals = if build_goal == 0.0 { format!("{goal} and 2.5") } else { format!("{goal}, {build_goal} of build and 2.5") };
        println!("| {input} | {} | {} | {ratio:.3} | {} | {of_build:.3} | {growth:.2} | {goals}, {met} |", time(report), time(mend), time(build));
    }
}

/// The names of the inputs, or one input through the entries of the tables on our side; for a run under a small stack.
fn stack(input: Option<String>) {
    let Some(input) = input else {
        SHEETS.iter().chain(&HOSTILE).for_each(|(name, ..)| println!("{name}"));
        return;
    };
    let (_, make, _) = SHEETS.iter().chain(&HOSTILE).find(|(name, ..)| *name == input).expect("an input");
    let text = make(inputs::MAX);
    let mut m = Lent::new();
    let mut set = Set::new();
    ours::sheet(&text, &mut m);
    ours::is_utf8(&text);
    ours::read_set(&text, 0, &mut set);
    ours::read_set_once(&text, 0, &mut set);
    black_box(ours::read_attrs_at(&text, 0, &mut m));
    black_box(ours::parse_standalone_attrs(&text, 1, &mut m));
    black_box(ours::parse_block(&text, 1, &mut m));
    black_box(ours::merge_lines(&text, 1, 1, &mut m));
    black_box(ours::variants(&text, &mut m));
    black_box(ours::totals(&text, &mut m));
    let (_, records, len) = ours::index(&text, &mut m);
    black_box(ours::find(len, b"v17", &mut m));
    black_box(ours::find_row(len, records, b"v17", &mut m));
    let index = m.index[..len].to_vec();
    black_box(ours::mend(&text, &text, 1, &index, &mut m));
}

fn main() {
    let words: Vec<String> = std::env::args().collect();
    if words.get(1).is_some_and(|word| word == "stack") {
        return stack(words.get(2).cloned());
    }
    at_a_brace();
    two_readers();
    places();
    utf8();
    by_line();
    whole_job();
    hostile();
    dealers_and_totals();
    indexes();
    mends();
}
