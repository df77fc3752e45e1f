//! Release sheets to try: good ones, ones that are made for a refusal, and damaged ones.
use crate::inputs::{any_timestamp, any_version};
use crate::random::Random;
use crate::reference::NAMES;

type Line = Vec<u8>;

/// Decimal digits, at times with zeros before them.
fn decimal(r: &mut Random, number: u64) -> String {
    let zeros = if r.one_in(6) { r.length(6) } else { 0 };
    format!("{}{number}", "0".repeat(zeros))
}

/// Hex digits of so many bytes, in small letters, large ones, or both.
fn hex(r: &mut Random, bytes: usize) -> String {
    let small: String = r.bytes(bytes).iter().map(|b| format!("{b:02x}")).collect();
    match r.below(3) {
        0 => small,
        1 => small.to_uppercase(),
        _ => small.chars().map(|c| if r.one_in(2) { c.to_ascii_uppercase() } else { c }).collect(),
    }
}

fn value(r: &mut Random, name: &str) -> String {
    match name {
        "version" => {
            let version = any_version(r) as u64;
            decimal(r, version)
        }
        "timestamp" => {
            let timestamp = any_timestamp(r);
            decimal(r, timestamp)
        }
        "auth" => {
            let any = r.next() as u16;
            let auth = r.pick(&[0, 512, u16::MAX, any]) as u64;
            decimal(r, auth)
        }
        "signature" => hex(r, 64),
        _ if r.one_in(2) => "no".to_string(),
        _ => hex(r, 32),
    }
}

fn line(name: &str, value: &str) -> Line {
    format!("{name} {value}").into_bytes()
}

/// A line of a sheet, its value well formed.
fn good_line(r: &mut Random, name: &str) -> Line {
    line(name, &value(r, name))
}

fn any_name(r: &mut Random) -> &'static str {
    NAMES[r.below(NAMES.len())].0
}

/// A line with no space in it.
fn line_without_space(r: &mut Random) -> Line {
    let name = any_name(r);
    let length = r.within(1, 6);
    let any: Line = r.bytes(length).iter().map(|b| if b" \n#".contains(b) { b'x' } else { *b }).collect();
    r.pick(&[name.as_bytes(), b"version=7", b"\r", b"\t", b"no", b"version\t7", &any]).to_vec()
}

/// A line whose name is not one of the five, often close to one.
fn line_of_other_name(r: &mut Random) -> Line {
    let name = any_name(r);
    let value = value(r, name);
    let cut = &name[..name.len() - 1];
    let other = match r.below(8) {
        0 => String::new(),
        1 => name.to_uppercase(),
        2 => format!("{name}s"),
        3 => cut.to_string(),
        4 => format!("\t{name}"),
        5 => format!("{name}:"),
        6 => "digest".to_string(),
        _ => format!("{}{cut}", &name[1..]),
    };
    line(&other, &value)
}

/// A value that is not allowed for this name.
fn wrong_value(r: &mut Random, name: &str) -> String {
    let good = value(r, name);
    let general = ["", " ", "-1", "+1", "0x7", "7a", "1.0", "1e3", "\u{663}", "yes", "No", "NO", "no no", "n", "o"];
    let large = match name {
        "version" => "4294967296",
        "timestamp" => "18446744073709551616",
        "auth" => "65536",
        _ => "no\r",
    };
    match r.below(8) {
        0 => format!(" {good}"),
        1 => format!("{good} "),
        2 => format!("{good}\r"),
        3 => format!("{}{large}", "0".repeat(r.length(5))),
        4 => format!("{}{large}", r.within(1, 9)),
        5 if name == "signature" || name == "hint" => {
            let digits = if name == "signature" { 64 } else { 32 };
            let mut all = hex(r, digits + 2);
            let length = r.pick(&[0, 1, digits, 2 * digits - 2, 2 * digits - 1, 2 * digits + 1, 2 * digits + 2]);
            all.truncate(length);
            all
        }
        6 if name == "signature" || name == "hint" => {
            let digits = if name == "signature" { 64 } else { 32 };
            let mut all = hex(r, digits).into_bytes();
            let at = r.below(all.len());
            all[at] = r.pick(b"gG/:@` \r\0");
            String::from_utf8_lossy(&all).into_owned()
        }
        _ => r.pick(&general).to_string(),
    }
}

fn shuffle(r: &mut Random, lines: &mut [Line]) {
    for i in (1..lines.len()).rev() {
        let j = r.below(i + 1);
        lines.swap(i, j);
    }
}

/// Puts a line among the others.
fn insert(r: &mut Random, lines: &mut Vec<Line>, line: Line) {
    let at = r.below(lines.len() + 1);
    lines.insert(at, line);
}

/// Makes the lines wrong for the refusal `wrong` (101 to 105).
fn make_wrong(r: &mut Random, lines: &mut Vec<Line>, wrong: usize) {
    let name = any_name(r);
    match wrong {
        101 => {
            let line = line_without_space(r);
            insert(r, lines, line);
        }
        102 => {
            let line = line_of_other_name(r);
            insert(r, lines, line);
        }
        103 => {
            let line = line(name, &wrong_value(r, name));
            insert(r, lines, line);
        }
        104 => {
            let line = if r.one_in(2) { lines[r.below(lines.len())].clone() } else { good_line(r, name) };
            insert(r, lines, line);
        }
        _ => {
            let most = lines.len();
            for _ in 0..r.pick(&[1, 1, 1, 2, 4, 5]).min(most) {
                let i = r.below(lines.len());
                lines.remove(i);
            }
        }
    }
}

/// Lines that are passed over: empty, or beginning with `#`, whatever follows.
fn add_passed_over(r: &mut Random, lines: &mut Vec<Line>) {
    while r.one_in(2) {
        let bits = if r.one_in(50) { 12 } else { 5 };
        let length = r.length(bits);
        let any: Line = r.bytes(length).into_iter().filter(|b| *b != b'\n').collect();
        let comment = [b"#", &any[..]].concat();
        let name = any_name(r);
        let hidden = [b"#".to_vec(), good_line(r, name)].concat();
        let line = r.pick(&[&b""[..], b"", b"#", &comment, &hidden]).to_vec();
        insert(r, lines, line);
    }
}

fn damage(r: &mut Random, text: &mut Vec<u8>) {
    for _ in 0..r.within(1, 3) {
        if !text.is_empty() {
            let (at, any) = (r.below(text.len()), r.next() as u8);
            match r.below(3) {
                0 => text[at] = r.pick(&[b' ', b'\n', b'#', b'0', b'a', b'F', b'g', b'\r', 0, any]),
                1 => text.insert(at, r.pick(b" \n#09f")),
                _ => {
                    text.remove(at);
                }
            }
        }
    }
}

/// A sheet, mostly a good one: the five lines in any order, with lines among them that are passed over.
pub fn sheet_text(r: &mut Random) -> Vec<u8> {
    let mut lines: Vec<Line> = NAMES.iter().map(|(name, _)| good_line(r, name)).collect();
    shuffle(r, &mut lines);
    for _ in 0..r.pick(&[0, 0, 0, 1, 1, 2]) {
        if !lines.is_empty() {
            let wrong = r.within(101, 105);
            make_wrong(r, &mut lines, wrong);
        }
    }
    add_passed_over(r, &mut lines);
    let mut text = lines.join(&b'\n');
    if !r.one_in(4) {
        text.push(b'\n');
    }
    if r.one_in(8) {
        damage(r, &mut text);
    }
    if r.one_in(40) {
        let length = r.length(8);
        text = r.bytes(length);
    }
    text
}
