//! `tainhosa explain`: a refusal in words, and what to do about it.
use crate::arguments::Parsed;
use crate::json::Json;
use crate::said::{line, Said, Stop};
use tainhosa::{meaning, Inner, Refusal};

/// The number of a refusal that there is.
fn refusal_number(given: &Parsed, at: usize) -> Result<u32, Stop> {
    let number = given.number("the refusal", &given.words[at])?;
    u32::try_from(number)
        .ok()
        .filter(|n| meaning(*n).is_some())
        .ok_or_else(|| given.wrong(format!("there is no refusal {number}: they are 1 to 21 and 101 to 105")))
}

pub fn run(given: &Parsed) -> Result<Said, Stop> {
    let number = refusal_number(given, 0)?;
    let place = given.words.get(1).map(|word| given.number("the place", word)).transpose()?;
    let inner = match given.words.len() {
        0..=2 => None,
        3 => return Err(given.wrong("the place of the inner refusal is missing")),
        _ if number != 12 && number != 13 => return Err(given.wrong("only 12 and 13 have an inner refusal")),
        _ => Some(Inner { number: refusal_number(given, 2)?, place: given.number("the inner place", &given.words[3])? }),
    };
    let refusal = Refusal { number, place: place.unwrap_or(0), inner };
    let words = match (place, meaning(number)) {
        (None, Some(m)) => m.sentence(None),
        _ => refusal.words(),
    };
    let asked = if place.is_some() { refusal.to_string() } else { format!("refused {number}") };
    Ok(Said::good(if given.json() {
        let place = place.map_or(Json::Null, Json::Number);
        line(Json::object([
            ("number", Json::Number(number.into())),
            ("place", place),
            ("words", Json::text(words)),
            ("advice", Json::text(refusal.advice())),
        ]))
    } else {
        format!("{asked}: {words}\n{}\n", refusal.advice())
    }))
}
