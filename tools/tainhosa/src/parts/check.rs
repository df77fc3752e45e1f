//! `tainhosa check`: whether an image is good, whether its header is sealed, and whether it fits a partition.
use crate::arguments::Parsed;
use crate::files;
use crate::json::Json;
use crate::said::{line, Said, Stop};
use std::ffi::OsStr;
use tainhosa::{Geometry, Header, Image, Refusal};

/// The geometry that two options give; None without both.
pub fn geometry(given: &Parsed) -> Result<Option<Result<Geometry, Refusal>>, Stop> {
    match (given.option("--sectors"), given.option("--size")) {
        (None, None) => Ok(None),
        (Some(sectors), Some(size)) => {
            // A number beyond 64 bits is as far outside the rules as the greatest that is not.
            let number = |what: &str, text: &OsStr| -> Result<usize, Stop> {
                let digits = !text.is_empty() && text.to_str().map_or(false, |t| t.bytes().all(|b| b.is_ascii_digit()));
                match given.number(what, text) {
                    Ok(n) => Ok(usize::try_from(n).unwrap_or(usize::MAX)),
                    Err(_) if digits => Ok(usize::MAX),
                    Err(stop) => Err(stop),
                }
            };
            Ok(Some(Geometry::new(number("--sectors", sectors)?, number("--size", size)?)))
        }
        (None, _) => Err(given.wrong("--size needs --sectors beside it")),
        (_, None) => Err(given.wrong("--sectors needs --size beside it")),
    }
}

/// A partition with the bytes of an image from byte 0 on, and FF behind them. What the firmware sectors do not hold is left out.
pub fn partition(geometry: Geometry, image: &[u8]) -> Vec<u8> {
    let room = geometry.firmware_sectors() * geometry.size();
    let mut bytes = image[..image.len().min(room)].to_vec();
    bytes.resize(geometry.partition(), 0xFF);
    bytes
}

pub fn run(given: &Parsed) -> Result<Said, Stop> {
    let path = &given.words[0];
    let name = files::name(path);
    let (json, sealed) = (given.json(), given.has("--sealed"));
    let geometry = match geometry(given)? {
        None => None,
        Some(Err(refusal)) => return Ok(Said::refused(json, "--sectors and --size", &refusal)),
        Some(Ok(geometry)) => Some(geometry),
    };
    let bytes = files::image(path)?;
    let image = match Image::check(&bytes) {
        Err(refusal) => return Ok(Said::refused(json, &name, &refusal).if_empty(&bytes, &name)),
        Ok(image) => image,
    };
    if sealed {
        if let Err(refusal) = Header::read_sealed(&bytes) {
            return Ok(Said::refused(json, &name, &refusal));
        }
    }
    if let Some(g) = geometry {
        if let Err(refusal) = Image::check_partition(g, &partition(g, &bytes)) {
            let subject = format!("{name}: good, but not for {} sectors of {} bytes", g.sectors(), g.size());
            return Ok(Said::refused(json, &subject, &refusal));
        }
    }
    Ok(Said::good(if json {
        let if_asked = |asked: bool| if asked { Json::Bool(true) } else { Json::Null };
        let mut fields = vec![("good", Json::Bool(true))];
        fields.extend(Json::header(image.header()));
        fields.extend([("sealed", if_asked(sealed)), ("fits", if_asked(geometry.is_some()))]);
        line(Json::Object(fields))
    } else {
        let sealed = if sealed { "sealed\n" } else { "" };
        let fits = geometry.map_or(String::new(), |g| format!("fits {} sectors of {}\n", g.sectors(), g.size()));
        format!("good\n{}\n{sealed}{fits}", image.header())
    }))
}
