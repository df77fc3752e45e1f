//! `tainhosa compare`: in which values two images differ, what their bytes say of that if both headers are sealed, and which is newer.
use crate::arguments::Parsed;
use crate::files;
use crate::json::{hex, Json};
use crate::parts::list::not_good;
use crate::said::{line, Said, Stop, GOOD};
use std::cmp::Ordering;
use tainhosa::{Header, HEADER_LENGTH};

/// The values of a header by name, in the order of the listing.
fn values(header: &Header) -> [(&'static str, String); 7] {
    [
        ("size", header.size.to_string()),
        ("version", header.version.to_string()),
        ("timestamp", header.timestamp.to_string()),
        ("auth", header.auth_type.to_string()),
        ("hint", header.hint.map_or("no".to_string(), |hint| hex(&hint))),
        ("digest", hex(&header.digest)),
        ("signature", hex(&header.signature)),
    ]
}

fn newer(first: &Header, second: &Header) -> &'static str {
    match first.version.cmp(&second.version) {
        Ordering::Less => "second",
        Ordering::Greater => "first",
        Ordering::Equal => "same version",
    }
}

/// What the bytes of two sealed headers say, and so their values: they are equal exactly if the bytes are. None if one is not sealed.
fn sealing(first: &[u8], second: &[u8]) -> Option<[&'static str; 2]> {
    if Header::read_sealed(first).is_err() || Header::read_sealed(second).is_err() {
        return None;
    }
    let equal = first[..HEADER_LENGTH] == second[..HEADER_LENGTH];
    Some(if equal { ["equal bytes", "equal values"] } else { ["bytes differ", "values differ"] })
}

fn lines(first: &Header, second: &Header, sealing: Option<[&str; 2]>) -> String {
    let pairs = values(first).into_iter().zip(values(second));
    let differing = pairs.filter(|((_, a), (_, b))| a != b).map(|((name, a), (_, b))| format!("{name} {a} {b}\n"));
    let sealed = sealing.map_or(String::new(), |[bytes, values]| format!("both sealed: {bytes}, so {values}\n"));
    format!("{}{sealed}newer: {}\n", differing.collect::<String>(), newer(first, second))
}

fn object(first: &Header, second: &Header, sealing: Option<[&str; 2]>) -> Json {
    let strings = values(first).into_iter().zip(values(second));
    let pairs = Json::header(first).into_iter().zip(Json::header(second));
    let differing = pairs.zip(strings).filter(|(_, ((_, a), (_, b)))| a != b);
    let fields = differing.map(|(((name, a), (_, b)), _)| (name, Json::List(vec![a, b])));
    let sealed = sealing.map_or(Json::Null, |[bytes, _]| Json::text(bytes));
    let newer = Json::text(newer(first, second));
    Json::object([("differing", Json::Object(fields.collect())), ("sealed", sealed), ("newer", newer)])
}

pub fn run(given: &Parsed) -> Result<Said, Stop> {
    let (mut headers, mut notes, mut images) = (vec![], vec![], vec![]);
    for path in &given.words {
        images.push((files::name(path), files::image(path)?));
    }
    for (name, bytes) in &images {
        match Header::read(bytes) {
            Err(refusal) => return Ok(Said::refused(given.json(), name, &refusal).if_empty(bytes, name)),
            Ok(header) => headers.push(header),
        }
        notes.extend(not_good(name, bytes).map(|(note, _)| note));
    }
    let (first, second) = (&headers[0], &headers[1]);
    let sealing = sealing(&images[0].1, &images[1].1);
    let out = if given.json() { line(object(first, second, sealing)) } else { lines(first, second, sealing) };
    Ok(Said { out, notes, status: GOOD })
}
