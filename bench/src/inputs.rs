//! The texts that both sides are given.

/// The longest text.
pub const MAX: usize = 65_535;

/// The block of a wheel, 51 bytes.
pub const WHEEL: &[u8] = b"{#v17 .wheel variant=17 wheel=front-left valve=120}";

/// The smallest block.
pub const SMALL: &[u8] = b"{.a}";

/// Names in capitals with digits, `_` and `-`, 64 bytes.
pub const CAPITALS: &[u8] = b"{#V17_A-2 .WHEEL-4_B VARIANT_1=17 WHEEL-2=FRONT_L VALVE_X-3=120}";

/// A block of 6,000 ids.
pub fn ids() -> Vec<u8> {
    let names: Vec<String> = (1..=6000).map(|n| format!("#v{n}")).collect();
    format!("{{{}}}", names.join(" ")).into_bytes()
}

/// A block of one value of so many bytes, in quotes or plain, with something before its close.
pub fn value(size: usize, quote: &str, last: &str) -> Vec<u8> {
    format!("{{k={quote}{}{quote}{last}}}", "a".repeat(size)).into_bytes()
}

/// Lines from `next`, numbered from 0, as long as they fit into `size` bytes.
fn filled(size: usize, mut next: impl FnMut(usize) -> String) -> Vec<u8> {
    let mut text = Vec::new();
    for n in 0.. {
        let part = next(n);
        if text.len() + part.len() > size {
            break;
        }
        text.extend_from_slice(part.as_bytes());
    }
    text
}

/// A setting of a valve on every line.
pub fn settings(size: usize) -> Vec<u8> {
    filled(size, |_| "{variant=1 wheel=front-left valve=1}\n".into())
}

/// A commissioning sheet: headings, prose, a block before each paragraph, some of them wrapped or quoted.
pub fn typical(size: usize) -> Vec<u8> {
    const WHEELS: [&str; 4] = ["front-left", "front-right", "rear-left", "rear-right"];
    filled(size, |n| {
        let wheel = WHEELS[n % 4];
        let (variant, valve) = (n / 4 % 30 + 1, n * 37 % 256);
        match n % 4 {
            0 => format!(
                "# Variant {variant}\n\n{{.common supplier=\"Kern & S\u{f6}hne\" unit=bar}}\n\
                 Open the valve until the gauge rests, then write the figure down.\n\n\
                 {{#v{variant} .wheel variant={variant} wheel={wheel} valve={valve}}}\nThe wheel turns freely.\n\n"
            ),
            1 => format!(
                "{{#v{variant}-{n} .wheel variant={variant} wheel={wheel} valve={valve}}}\n\
                 Turn the unit by hand before the pressure is put on. The left lamp\nstays dark, the right one shows the step.\n\n"
            ),
            2 => format!(
                "{{#v{variant}-{n} .wheel .checked\n variant={variant} wheel={wheel}\n valve={valve} note=\"see \\\"{variant}\\\"\"}}\n\
                 Hold the pedal for three seconds and listen for the second click.\n\n"
            ),
            _ => format!(
                "{{.wheel variant={variant}}}{{wheel={wheel} valve={valve}}}\nThe last wheel of this variant; close the cover.\n\n\
                 A sheet has prose as well, and a line may hold a {{brace}} of its own.\n\n"
            ),
        }
    })
}

/// The smallest block on every line.
pub fn small_blocks(size: usize) -> Vec<u8> {
    filled(size, |_| "{.a}\n".into())
}

/// Indented lines, before none of which a sheet may be parted.
pub fn indented(size: usize) -> Vec<u8> {
    filled(size, |_| " {.a}\n".into())
}

/// Prose without a block.
pub fn prose(size: usize) -> Vec<u8> {
    filled(size, |n| match n % 3 {
        0 => "Open the valve until the gauge rests, then write the figure down.\n".into(),
        1 => "Turn the unit by hand before the pressure is put on.\n".into(),
        _ => "The left lamp stays dark, the right one shows the step that is being taken.\n".into(),
    })
}

/// Text in which two to four bytes to a character come as often as one.
pub fn mixed(size: usize) -> Vec<u8> {
    filled(size, |n| match n % 4 {
        0 => "\u{dc}berdruck pr\u{fc}fen, gr\u{f6}\u{df}er als zw\u{f6}lf bar ist gef\u{e4}hrlich.\n".into(),
        1 => "\u{39f} \u{3c4}\u{3c1}\u{3bf}\u{3c7}\u{3cc}\u{3c2} \u{3b3}\u{3c5}\u{3c1}\u{3af}\u{3b6}\u{3b5}\u{3b9} \u{3b5}\u{3bb}\u{3b5}\u{3cd}\u{3b8}\u{3b5}\u{3c1}\u{3b1}.\n".into(),
        2 => "\u{5de6}\u{524d}\u{8f2a}\u{306e}\u{5f01}\u{3092}\u{9589}\u{3058}\u{308b}\u{3002} valve=120\n".into(),
        _ => "plain words stand between \u{1f6de} and \u{1f527}\n".into(),
    })
}

/// One wrapped run after the other, each with a second block glued on.
pub fn glued_runs(size: usize) -> Vec<u8> {
    filled(size, |_| "{a\n b}{c\n     d}\n".into())
}

/// One glued run to the end: each line closes a block and opens the next, indented beyond the last brace.
pub fn one_glued_run(size: usize) -> Vec<u8> {
    let mut text = b"{a\n".to_vec();
    let mut indent = 1;
    loop {
        let line = format!("{}b}}{{a\n", " ".repeat(indent));
        if text.len() + line.len() + indent + 10 > size {
            break;
        }
        text.extend_from_slice(line.as_bytes());
        indent += 3;
    }
    text.extend_from_slice(format!("{}b}}\n", " ".repeat(indent)).as_bytes());
    text
}

/// One run with a quoted `}` on every line.
pub fn quoted_closes(size: usize) -> Vec<u8> {
    let mut text = b"{a\n".to_vec();
    text.extend(filled(size - 8, |_| " b=\"}\"\n".into()));
    text.extend_from_slice(b" c}\n");
    text
}

/// A line that opens a block and never closes it, again and again.
pub fn unclosed_lines(size: usize) -> Vec<u8> {
    filled(size, |_| "{a\n".into())
}

/// One opened block that every later line goes on with and none closes.
pub fn unclosed_run(size: usize) -> Vec<u8> {
    let mut text = b"{a\n".to_vec();
    text.extend(filled(size - 3, |_| " b\n".into()));
    text
}

/// Openers on one line.
pub fn unclosed_openers(size: usize) -> Vec<u8> {
    filled(size, |_| "{a ".into())
}

/// The longest language tag.
pub fn longest_tag(size: usize) -> Vec<u8> {
    let mut text = b"{:a".to_vec();
    text.extend(filled(size - 5, |_| "-a".into()));
    text.extend_from_slice(b"}\n");
    text
}

/// One line of blocks back to back, all of one key.
pub fn one_line(size: usize) -> Vec<u8> {
    filled(size - 1, |n| if n == 0 { "{k=1}".into() } else { "{k=2}".into() })
}

/// The names of so many keys or classes, as short as they can be.
fn names(limit: usize) -> impl Iterator<Item = String> {
    let letters = || ('a'..='z').chain('A'..='Z').map(String::from);
    letters().chain(letters().map(|name| name + "0")).take(limit)
}

/// A block of so many keys on every line.
pub fn key_blocks(limit: usize, size: usize) -> Vec<u8> {
    filled(size, |_| format!("{{{}}}\n", names(limit).collect::<Vec<_>>().join(" ")))
}

/// A block of so many classes on every line.
pub fn class_blocks(limit: usize, size: usize) -> Vec<u8> {
    filled(size, |_| format!("{{{}}}\n", names(limit).map(|name| format!(".{name}")).collect::<Vec<_>>().join(" ")))
}

/// How many classes a set holds.
pub const LIMIT: usize = 64;

/// So many classes in one block, from `next`, which is handed the number and how many bytes a class may take.
fn classes(limit: usize, room: usize, next: impl Fn(usize, usize) -> String) -> Vec<u8> {
    let classes: Vec<String> = (0..limit).map(|n| next(n, room / limit)).collect();
    format!("{{{}}}\n", classes.join(" ")).into_bytes()
}

/// Classes as long as their canonical text allows, alike but for the last bytes.
pub fn alike_classes(limit: usize, size: usize) -> Vec<u8> {
    // In the canonical text a class takes 9 bytes more, ` class=""`, and the braces one.
    classes(limit, size - 1, |n, room| format!(".{}{n:02}", "a".repeat(room - 11)))
}

/// Classes in quotes with an escape at each byte, alike but for the last two; here the text itself is as long as it may be.
pub fn alike_escaped(limit: usize, size: usize) -> Vec<u8> {
    const LAST: [&str; 8] = ["!", "#", "$", "%", "&", "*", "/", "~"];
    classes(limit, size - 2, |n, room| {
        // Around its bytes a class has ` class=""`.
        let alike = "\\.".repeat((room - 9) / 2 - 2);
        format!("class=\"{alike}\\{}\\{}\"", LAST[n / 8], LAST[n % 8])
    })
}
