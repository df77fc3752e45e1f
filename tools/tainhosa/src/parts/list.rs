//! `tainhosa list`: what a header states.
use crate::arguments::Parsed;
use crate::json::Json;
use crate::said::{in_words, line, Said, Stop, REFUSED};
use crate::{files, said};
use tainhosa::{tag_name, Header, Image, Refusal, Tag, Tags};

pub fn run(given: &Parsed) -> Result<Said, Stop> {
    let path = &given.words[0];
    let bytes = files::image(path)?;
    let name = files::name(path);
    let said = if given.has("--tags") { tags(given.json(), &name, &bytes) } else { listing(given.json(), &name, &bytes) };
    Ok(said.if_empty(&bytes, &name))
}

/// What is to be said beside the values of a header whose image is not good.
pub fn not_good(name: &str, bytes: &[u8]) -> Option<(String, Refusal)> {
    let refusal = Image::check(bytes).err()?;
    let subject = format!("{name}: the header reads, but the image is not good ({refusal})");
    Some((in_words(&subject, &refusal), refusal))
}

fn listing(json: bool, name: &str, bytes: &[u8]) -> Said {
    let header = match Header::read(bytes) {
        Err(refusal) => return Said::refused(json, name, &refusal),
        Ok(header) => header,
    };
    let bad = not_good(name, bytes);
    let out = if json {
        let mut fields = Json::header(&header);
        fields.push(("good", Json::Bool(bad.is_none())));
        if let Some((_, refusal)) = &bad {
            fields.push(("why", Json::refusal(refusal)));
        }
        line(Json::Object(fields))
    } else {
        format!("{header}\n")
    };
    Said { out, notes: bad.into_iter().map(|(note, _)| note).collect(), status: said::GOOD }
}

fn tag_line(tag: &Tag) -> String {
    let Tag { place, kind, length } = tag;
    let name = tag_name((*kind).into()).map_or(String::new(), |name| format!(" {name}"));
    let critical = if tag.is_critical() { " critical" } else { "" };
    format!("at {place} type {kind:04x} length {length}{name}{critical}\n")
}

fn tag_json(tag: &Tag) -> Json {
    let name = tag_name(tag.kind.into()).map_or(Json::Null, Json::text);
    Json::object([
        ("place", Json::Number(tag.place as u64)),
        ("type", Json::Number(tag.kind.into())),
        ("length", Json::Number(tag.length as u64)),
        ("name", name),
        ("critical", Json::Bool(tag.is_critical())),
    ])
}

/// Every tag, then the end or the refusal that the walk over them comes to.
fn tags(json: bool, name: &str, bytes: &[u8]) -> Said {
    let (mut found, mut refused) = (vec![], None);
    for tag in Tags::new(bytes) {
        match tag {
            Ok(tag) => found.push(tag),
            Err(refusal) => refused = Some(refusal),
        }
    }
    let out = if json {
        let last = match &refused {
            None => ("end", Json::Bool(true)),
            Some(refusal) => ("refused", Json::refusal(refusal)),
        };
        line(Json::object([("tags", Json::List(found.iter().map(tag_json).collect())), last]))
    } else {
        let last = refused.map_or("end".to_string(), |refusal| refusal.to_string());
        format!("{}{last}\n", found.iter().map(tag_line).collect::<String>())
    };
    let status = if refused.is_some() { REFUSED } else { said::GOOD };
    Said { out, notes: refused.iter().map(|refusal| in_words(name, refusal)).collect(), status }
}
