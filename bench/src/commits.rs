//! Times the code of several commits on the same inputs, in one process, in turn. `bench/commits` links it, and says how.
//!
//!     commits                a line for each row: of each commit its best time in ns, and the median over rounds of its time by the first one's
//!     commits COMMIT         each row once by that commit, its instructions counted by callgrind, under which it has to run
//!     commits --table DIR    the table, from the files that `bench/commits` has left there

#[allow(dead_code)]
mod inputs;

use std::hint::black_box;
use std::time::Instant;

/// A slice: the functions take it as these two words, one behind the other.
#[derive(Clone, Copy)]
struct Slice(*const u8, usize);

/// The functions of one commit.
#[derive(Clone, Copy)]
struct Side {
    name: &'static str,
    read_set: unsafe extern "C" fn(*mut u8, *const u8, usize, usize, u8),
    is_utf8: unsafe extern "C" fn(*const u8, usize) -> bool,
    read_attrs_at: unsafe extern "C" fn(*const u8, usize, usize, u8, *const u8, usize, *const u8, usize) -> u8,
    line: unsafe extern "C" fn(*const u8, usize, usize, *const u8, usize, *const u8, usize) -> u8,
    block: unsafe extern "C" fn(*const u8, usize, usize, *const u8, usize, *const u8, usize, *const u8, usize) -> u8,
    merge: unsafe extern "C" fn(*const u8, usize, usize, usize, *const u8, usize, *const u8, usize) -> u8,
    start: unsafe extern "C" fn(*const u8, usize, *const u8, usize, *const u8, usize, *const u8, usize) -> u8,
    part: unsafe extern "C" fn(*const u8, usize, usize, usize, *const u8, usize, *const u8, usize, *const u8, usize) -> u8,
}

/// The commits and the names of their functions, as `bench/commits` writes them.
macro_rules! sides {
    ($($name:literal $set:ident $utf8:ident $at:ident $line:ident $block:ident $merge:ident $start:ident $part:ident;)*) => {
        extern "C" {$(
            fn $set(answer: *mut u8, text: *const u8, len: usize, place: usize, mode: u8);
            fn $utf8(text: *const u8, len: usize) -> bool;
            fn $at(text: *const u8, len: usize, place: usize, loose: u8, out: *const u8, out_len: usize, told: *const u8, told_len: usize) -> u8;
            fn $line(text: *const u8, len: usize, line: usize, out: *const u8, out_len: usize, told: *const u8, told_len: usize) -> u8;
            fn $block(text: *const u8, len: usize, line: usize, join: *const u8, join_len: usize, out: *const u8, out_len: usize, told: *const u8, told_len: usize) -> u8;
            fn $merge(text: *const u8, len: usize, common: usize, variant: usize, out: *const u8, out_len: usize, told: *const u8, told_len: usize) -> u8;
            fn $start(text: *const u8, len: usize, join: *const u8, join_len: usize, out: *const u8, out_len: usize, told: *const u8, told_len: usize) -> u8;
            fn $part(text: *const u8, len: usize, at: usize, line: usize, join: *const u8, join_len: usize, out: *const u8, out_len: usize, told: *const u8, told_len: usize) -> u8;
        )*}
        const SIDES: &[Side] = &[$(Side {
            name: $name, read_set: $set, is_utf8: $utf8, read_attrs_at: $at, line: $line, block: $block, merge: $merge, start: $start, part: $part,
        }),*];
    };
}
include!(env!("SIDES"));

/// Memory that the calls are lent.
struct Lent {
    set: Box<[u64; 512]>,
    join: Vec<u8>,
    out: Vec<u8>,
    told: [usize; 8],
}

impl Lent {
    fn join(&mut self) -> Slice {
        Slice(self.join.as_mut_ptr(), self.join.len())
    }
    fn out(&mut self) -> Slice {
        Slice(self.out.as_mut_ptr(), self.out.len())
    }
    fn told(&mut self, len: usize) -> Slice {
        Slice(self.told.as_mut_ptr().cast(), len)
    }
}

#[derive(Clone, Copy)]
enum Ask {
    Utf8,
    Set,
    At,
    Line(usize),
    Block(usize),
    Merge(usize, usize),
    Sheet,
}

/// One call, or as many as a report takes: the number that it answers.
fn ask(side: &Side, ask: Ask, bytes: &[u8], m: &mut Lent) -> u8 {
    let (text, len) = (bytes.as_ptr(), bytes.len());
    let (join, out) = (m.join(), m.out());
    unsafe {
        match ask {
            Ask::Utf8 => (side.is_utf8)(text, len) as u8,
            Ask::Set => {
                (side.read_set)(m.set.as_mut_ptr().cast(), text, len, 0, 0);
                0
            }
            Ask::At => {
                let told = m.told(2);
                (side.read_attrs_at)(text, len, 0, 0, out.0, out.1, told.0, told.1)
            }
            Ask::Line(n) => {
                let told = m.told(1);
                (side.line)(text, len, n, out.0, out.1, told.0, told.1)
            }
            Ask::Block(n) => {
                let told = m.told(5);
                (side.block)(text, len, n, join.0, join.1, out.0, out.1, told.0, told.1)
            }
            Ask::Merge(a, b) => {
                let told = m.told(2);
                (side.merge)(text, len, a, b, out.0, out.1, told.0, told.1)
            }
            Ask::Sheet => {
                let told = m.told(3);
                let mut number = (side.start)(text, len, join.0, join.1, out.0, out.1, told.0, told.1);
                while number == 0 && m.told[2] != 0 {
                    number = (side.part)(text, len, m.told[1], m.told[2], join.0, join.1, out.0, out.1, told.0, told.1);
                }
                number
            }
        }
    }
}

/// Seconds that this thread has had a processor, which the other work of a busy machine counts little for.
fn now() -> f64 {
    extern "C" {
        fn clock_gettime(clock: i32, time: *mut [i64; 2]) -> i32;
    }
    let mut time = [0; 2];
    unsafe { clock_gettime(3, &mut time) };
    time[0] as f64 + time[1] as f64 * 1e-9
}

/// So many calls, behind one that warms: seconds by the clock, and of this thread.
fn timed(calls: usize, ask: &mut dyn FnMut() -> u8) -> (f64, f64) {
    black_box(ask());
    let (clock, start) = (Instant::now(), now());
    for _ in 0..calls {
        black_box(ask());
    }
    let own = now() - start;
    (clock.elapsed().as_secs_f64(), own)
}

/// Asks callgrind for something: the number of the request, and a name for what it writes, a zero byte behind it.
fn callgrind(request: usize, name: &str) {
    let words = [0x4354_0000 + request, name.as_ptr() as usize, 0, 0, 0, 0];
    #[cfg(target_arch = "x86_64")]
    unsafe {
        std::arch::asm!("rol rdi, 3", "rol rdi, 13", "rol rdi, 61", "rol rdi, 51", "xchg rbx, rbx", in("rax") words.as_ptr(), inout("rdx") 0usize => _)
    }
    black_box(words);
}

/// What is asked: the name of a row, its text, and the function. Whole sheets stand last.
fn rows() -> Vec<(String, Vec<u8>, Ask)> {
    let small = b"{.common supplier=\"Kern\" unit=bar}\n{#v17 .wheel .checked\n variant=17 wheel=front-left\n valve=120}\n{.wheel valve=7 unit=psi}\n";
    let mut rows = Vec::new();
    let braces = [
        ("wheel, 51 bytes", inputs::WHEEL.to_vec()),
        ("`{.a}`", inputs::SMALL.to_vec()),
        ("names in capitals, 64 bytes", inputs::CAPITALS.to_vec()),
        ("6,000 ids", inputs::ids()),
    ];
    for (name, text) in braces {
        rows.push((format!("`read_attrs_at`, {name}"), text.clone(), Ask::Set));
        rows.push((format!("the same, and its canonical text, {name}"), text, Ask::At));
    }
    let big = inputs::typical(inputs::MAX);
    rows.push(("`parse_standalone_attrs`, 110 bytes".into(), small.to_vec(), Ask::Line(1)));
    rows.push(("`parse_standalone_attrs_block`, three lines of 110 bytes".into(), small.to_vec(), Ask::Block(2)));
    rows.push(("merge of two lines, 110 bytes".into(), small.to_vec(), Ask::Merge(1, 5)));
    rows.push(("`parse_standalone_attrs`, line 3 of a sheet of 64 KB".into(), big.clone(), Ask::Line(3)));
    rows.push(("`parse_standalone_attrs_block`, line 13 of a sheet of 64 KB".into(), big.clone(), Ask::Block(13)));
    rows.push(("merge of lines 3 and 6 of a sheet of 64 KB".into(), big, Ask::Merge(3, 6)));
    for (name, make) in [("ASCII", inputs::prose as fn(usize) -> Vec<u8>), ("mixed text", inputs::mixed), ("typical sheet", inputs::typical)] {
        rows.push((format!("`is_utf8`, {name}, 64 KB"), make(inputs::MAX), Ask::Utf8));
    }
    let sheets: [(&str, fn(usize) -> Vec<u8>); 20] = [
        ("typical sheet", inputs::typical),
        ("`{.a}` on every line", inputs::small_blocks),
        ("text without blocks, ASCII", inputs::prose),
        ("text without blocks, mixed", inputs::mixed),
        ("glued wrapped runs", inputs::glued_runs),
        ("one glued run to the end", inputs::one_glued_run),
        ("a quoted `}` on every line of one run", inputs::quoted_closes),
        ("unclosed openers, one a line", inputs::unclosed_lines),
        ("unclosed openers on one line", inputs::unclosed_openers),
        ("one unclosed run", inputs::unclosed_run),
        ("the longest tag", inputs::longest_tag),
        ("13,000 blocks on one line", inputs::one_line),
        ("32 long classes alike but for the last bytes", |size| inputs::alike_classes(32, size)),
        ("32 long classes with an escape at each byte", |size| inputs::alike_escaped(32, size)),
        ("64 long classes alike but for the last bytes", |size| inputs::alike_classes(64, size)),
        ("64 long classes with an escape at each byte", |size| inputs::alike_escaped(64, size)),
        ("a block of 32 keys on every line", |size| inputs::key_blocks(32, size)),
        ("a block of 64 keys on every line", |size| inputs::key_blocks(64, size)),
        ("a block of 32 classes on every line", |size| inputs::class_blocks(32, size)),
        ("a block of 64 classes on every line", |size| inputs::class_blocks(64, size)),
    ];
    for (name, make) in sheets {
        rows.push((name.into(), make(inputs::MAX), Ask::Sheet));
    }
    rows
}

/// For how many seconds a row is measured, all commits together.
fn budget() -> f64 {
    std::env::var("SECONDS_A_ROW").ok().and_then(|n| n.parse().ok()).unwrap_or(1.0)
}

/// What the files of a folder that start so have to say.
fn read_all(dir: &str, start: &str) -> Vec<String> {
    let files = std::fs::read_dir(dir).unwrap().map(|f| f.unwrap().path());
    files.filter(|f| f.file_name().unwrap().to_str().unwrap().starts_with(start)).map(|f| std::fs::read_to_string(f).unwrap()).collect()
}

/// What stands behind a word, up to the end of its line.
fn behind<'a>(text: &'a str, word: &str) -> Option<&'a str> {
    text[text.find(word)? + word.len()..].lines().next()
}

/// How many instructions a row took, where they were counted.
fn count(parts: &[String], name: &str) -> Option<f64> {
    let part = parts.iter().find(|part| behind(part, "Client Request: ") == Some(name))?;
    behind(part, "summary: ")?.parse().ok()
}

fn median(mut list: Vec<f64>) -> f64 {
    list.sort_by(f64::total_cmp);
    list[list.len() / 2]
}

fn table(dir: &str) {
    let counts: Vec<Vec<String>> = SIDES.iter().map(|side| read_all(dir, &format!("count.{}.", side.name))).collect();
    let runs: Vec<Vec<Vec<String>>> =
        read_all(dir, "run.").iter().map(|run| run.lines().map(|line| line.split('\t').map(String::from).collect()).collect()).collect();
    print!("| row | {}, best", SIDES[0].name);
    SIDES[1..].iter().for_each(|side| print!(" | {0} / {1}, time | of the layouts | {0} / {1}, instructions", side.name, SIDES[0].name));
    println!(" |\n|---|---{}|", "|---|---|---".repeat(SIDES.len() - 1));
    for (n, row) in runs[0].iter().enumerate() {
        // Of each run the number of that place: 0 the best time, 1 the ratio.
        let figures = |side: usize, place: usize| -> Vec<f64> {
            runs.iter().map(|run| run[n][side + 1].split(' ').nth(place).unwrap().parse().unwrap()).collect()
        };
        print!("| {} | {:.2} \u{b5}s", row[0], figures(0, 0).into_iter().fold(f64::MAX, f64::min) / 1000.0);
        for (side, counted) in counts.iter().enumerate().skip(1) {
            let ratios = figures(side, 1);
            let (least, most) = ratios.iter().fold((f64::MAX, 0f64), |(a, b), &r| (a.min(r), b.max(r)));
            let other = if row[side + 1].contains("other") { ", other answer" } else { "" };
            let counted = count(counted, &row[0]).zip(count(&counts[0], &row[0])).map_or("".into(), |(b, a)| format!("{:.3}", b / a));
            print!(" | {:.3}{other} | {least:.2} to {most:.2} | {counted}", median(ratios));
        }
        println!(" |");
    }
}

fn main() {
    let mut m = Lent { set: Box::new([0; 512]), join: vec![0; 65_535], out: vec![0; 1 << 20], told: [0; 8] };
    let only = std::env::args().nth(1);
    if only.as_deref() == Some("--table") {
        return table(&std::env::args().nth(2).expect("a folder"));
    }
    for (name, text, what) in rows() {
        if let Some(side) = &only {
            let side = SIDES.iter().find(|s| s.name == side).expect("no such commit");
            ask(side, what, &text, &mut m);
            let label = format!("{name}\0");
            callgrind(1, "\0");
            ask(side, what, &text, &mut m);
            callgrind(3, &label);
            continue;
        }
        // What each commit answers; a round then asks each for a tenth of a millisecond or once.
        let answers = SIDES.iter().map(|side| {
            m.told = [0; 8];
            m.out.fill(0);
            (ask(side, what, &text, &mut m), m.told, m.out.clone())
        });
        let answers: Vec<_> = answers.collect();
        let mut calls = 1;
        while timed(calls, &mut || ask(&SIDES[0], what, &text, &mut m)).1 < 0.0001 {
            calls *= 2;
        }
        let mut times = vec![Vec::new(); SIDES.len()];
        let mut bests = vec![f64::MAX; SIDES.len()];
        let begin = now();
        while times[0].len() < 9 || now() - begin < budget() {
            for (n, side) in SIDES.iter().enumerate() {
                let (clock, own) = timed(calls, &mut || ask(side, what, black_box(&text), &mut m));
                times[n].push(own);
                bests[n] = bests[n].min(clock / calls as f64);
            }
        }
        print!("{name}");
        for (side, mine) in times.iter().enumerate() {
            let ratio = median(mine.iter().zip(&times[0]).map(|(a, b)| a / b).collect());
            let alike = if answers[side] == answers[0] { "" } else { " other answer" };
            print!("\t{:.1} {ratio:.4}{alike}", bests[side] * 1e9);
        }
        println!();
    }
}
