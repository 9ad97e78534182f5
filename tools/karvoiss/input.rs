//! What a command is given: files, standard input or well-known text on the command line. What they are is told by what they begin with and by the name's ending; the shapes in them
//! come out by name, each an object or a refusal.

use crate::form::{self, Form, Text};
use crate::grid::{Grid, thousands};
use crate::library::No;
use crate::pair::Object;
use crate::refusals::{self, Refused};
use crate::shape::{Fault, Item, Lines};
use crate::{bytes, csv, geojson, records, wkb, wkt};
use std::fs::File;
use std::io::Read;
use std::path::Path;

/// A shape by name. What makes it none is said with its place in the file.
pub struct Named {
    pub name: String,
    pub object: Result<Object, Refused>,
}

pub enum Held {
    /// Two objects' bytes, or what is meant to be, as they are.
    Scene(Vec<u8>),
    Shapes(Vec<Named>),
}

/// How files are read: onto which grid, and which column or property has the shapes and their names.
pub struct Reading {
    pub grid: Grid,
    pub column: Option<String>,
    pub name: Option<String>,
}

/// As much as is read of one file. The shapes of a larger one are not kept in memory by accident.
const MOST: u64 = 64 << 20;

/// What of a file is looked at before the rest is read.
const HEAD: usize = 4096;

struct Source {
    /// What messages call it.
    label: String,
    /// What its shapes are called, if it has no names for them.
    stem: String,
    ending: String,
    form: Form,
    bytes: Vec<u8>,
}

/// All that an argument holds. `FILE#NAME` is one shape of a file, by its name or its number from 1.
pub fn held(argument: &str, reading: &mut Reading) -> Result<Held, String> {
    let (source, chosen) = source(argument)?;
    let held = source.held(reading)?;
    match (held, chosen) {
        (held, None) => Ok(held),
        (Held::Shapes(shapes), Some(name)) => chosen_of(shapes, name, &source.label).map(|shape| Held::Shapes(vec![shape])),
        (Held::Scene(_), Some(_)) => Err(format!("{}: a scene's objects have no names", source.label)),
    }
}

fn source(argument: &str) -> Result<(Source, Option<&str>), String> {
    if argument == "-" {
        return Ok((Source::read(std::io::stdin().lock(), "standard input", "shape", "", None)?, None));
    }
    if Path::new(argument).exists() {
        return Ok((file(argument)?, None));
    }
    if let Some((at, _)) = argument.match_indices('#').find(|(at, _)| Path::new(&argument[..*at]).exists()) {
        return Ok((file(&argument[..at])?, Some(&argument[at + 1..])));
    }
    let word = argument.trim_start().split(|c: char| !c.is_ascii_alphabetic()).next().unwrap_or("");
    if argument.contains(['(', ' ']) && wkt::is_kind(word) {
        let name: String = argument.chars().take(30).collect();
        let stem = if name.len() < argument.len() { format!("{name}..") } else { name };
        return Ok((Source::read(argument.as_bytes(), "the text on the command line", &stem, "wkt", None)?, None));
    }
    file(argument).map(|source| (source, None))
}

fn file(path: &str) -> Result<Source, String> {
    let failed = |error: std::io::Error| format!("{path}: {}", plain(&error));
    let about = std::fs::metadata(path).map_err(failed)?;
    if about.is_dir() {
        return Err(format!("{path} is a directory: name the files in it"));
    }
    let file = File::open(path).map_err(failed)?;
    let part = |part: Option<&std::ffi::OsStr>| part.map(|part| part.to_string_lossy().into_owned()).unwrap_or_default();
    let (stem, ending) = (part(Path::new(path).file_stem()), part(Path::new(path).extension()).to_ascii_lowercase());
    Source::read(file, path, &stem, &ending, about.is_file().then_some(about.len()))
}

/// An error of the system without its number.
pub fn plain(error: &std::io::Error) -> String {
    let text = error.to_string();
    let text = text.split(" (os error").next().unwrap_or("");
    let mut letters = text.chars();
    letters.next().into_iter().flat_map(char::to_lowercase).chain(letters).collect()
}

impl Source {
    fn read(mut from: impl Read, label: &str, stem: &str, ending: &str, length: Option<u64>) -> Result<Source, String> {
        let failed = |error: std::io::Error| format!("{label}: {}", plain(&error));
        let mut bytes = Vec::new();
        from.by_ref().take(HEAD as u64).read_to_end(&mut bytes).map_err(failed)?;
        let form = form::of(&bytes, ending).map_err(|why| format!("{label} {why}"))?;
        let too_large = |has: String| format!("{label} has {has} bytes, and a file may have {}: split it into several", thousands(MOST));
        if let Some(length) = length.filter(|length| *length > MOST) {
            return Err(too_large(thousands(length)));
        }
        from.take(MOST + 1 - bytes.len() as u64).read_to_end(&mut bytes).map_err(failed)?;
        if bytes.len() as u64 > MOST {
            return Err(too_large("more".to_string()));
        }
        Ok(Source { label: label.to_string(), stem: stem.to_string(), ending: ending.to_string(), form, bytes })
    }

    fn held(&self, reading: &mut Reading) -> Result<Held, String> {
        match self.form {
            Form::Scene => Ok(self.scene_or_object(&self.bytes)),
            Form::Wkb => Ok(Held::Shapes(vec![self.binary(&self.bytes, self.stem.clone(), &mut reading.grid)])),
            Form::Text => self.text(reading),
        }
    }

    /// Two objects are a scene, and so is what cannot be told; one object alone is a shape.
    fn scene_or_object(&self, found: &[u8]) -> Held {
        let alone = bytes::second(found) == found.len();
        match Object::of(found.to_vec()) {
            Ok(object) if alone => Held::Shapes(vec![Named { name: self.stem.clone(), object: Ok(object) }]),
            _ => Held::Scene(found.to_vec()),
        }
    }

    fn binary(&self, wkb: &[u8], name: String, grid: &mut Grid) -> Named {
        let object = wkb::object(wkb, grid).and_then(accepted).map_err(|no| self.told(no, |at| format!("byte {at}")));
        Named { name, object }
    }

    fn text(&self, reading: &mut Reading) -> Result<Held, String> {
        let text = std::str::from_utf8(&self.bytes).map_err(|error| self.no_text(error.valid_up_to()))?;
        let plain = text.trim_start_matches('\u{feff}').trim_start();
        if records::is_listing(plain) {
            return records::read(text).map(|bytes| self.scene_or_object(&bytes)).map_err(|fault| self.fault(text, fault));
        }
        if let Some(shapes) = self.hexadecimal(text, &mut reading.grid) {
            return Ok(Held::Shapes(shapes));
        }
        let kind = form::text(plain, &self.ending, reading.column.is_some()).map_err(|why| format!("{}: {why}", self.label))?;
        let items = self.items(text, kind, reading).map_err(|fault| self.fault(text, fault))?;
        if items.is_empty() {
            return Err(format!("{} holds no shape", self.label));
        }
        Ok(Held::Shapes(self.named(text, items)))
    }

    fn items(&self, text: &str, kind: Text, reading: &mut Reading) -> Result<Vec<Item>, Fault> {
        let Reading { grid, column, name } = reading;
        match kind {
            Text::Json => geojson::read(text, name.as_deref(), grid),
            Text::Table => csv::read(text, column.as_deref(), name.as_deref(), grid),
            Text::Wkt => wkt::read(text, grid),
        }
    }

    /// Well-known binary in hexadecimal, a shape to a line.
    fn hexadecimal(&self, text: &str, grid: &mut Grid) -> Option<Vec<Named>> {
        let lines: Vec<&str> = text.lines().map(str::trim).filter(|line| !line.is_empty()).collect();
        if lines.is_empty() || !lines.iter().all(|line| line.bytes().all(|b| b.is_ascii_hexdigit() || b == b' ')) {
            return None;
        }
        let bytes = |digits: &str| wkb::unspelt(digits.replace(' ', "").as_bytes());
        let each: Option<Vec<Vec<u8>>> = lines.iter().map(|line| bytes(line)).collect();
        let each = match each.filter(|each| each.iter().all(|wkb| wkb::begins(wkb))) {
            Some(each) => each,
            // one shape may also go on from line to line
            None => vec![bytes(&lines.concat())?],
        };
        let name = |at: usize| if each.len() == 1 { self.stem.clone() } else { format!("{} {}", self.stem, at + 1) };
        Some(each.iter().enumerate().map(|(at, wkb)| self.binary(wkb, name(at), grid)).collect())
    }

    fn named(&self, text: &str, items: Vec<Item>) -> Vec<Named> {
        let many = items.len() > 1;
        let given = |at: usize| if many { format!("{} {}", self.stem, at + 1) } else { self.stem.clone() };
        let lines = Lines::of(text);
        let place = |at: usize| {
            let (line, column) = lines.place(at);
            format!("line {line}, column {column}")
        };
        let named = |(at, item): (usize, Item)| {
            let object = item.object.and_then(accepted).map_err(|no| self.told(Refused { at: no.at.or(Some(item.at)), ..no }, place));
            Named { name: item.name.unwrap_or_else(|| given(at)), object }
        };
        items.into_iter().enumerate().map(named).collect()
    }

    /// A refusal with its place in words.
    fn told(&self, no: Refused, place: impl Fn(usize) -> String) -> Refused {
        let at = no.at.map(|at| format!(", {}", place(at))).unwrap_or_default();
        Refused { says: format!("{}{at}: {}", self.label, no.says), ..no }
    }

    fn fault(&self, text: &str, fault: Fault) -> String {
        let (line, column) = Lines::of(text).place(fault.at);
        format!("{}, line {line}, column {column}: {}{}", self.label, fault.message, excerpt(text, line, column))
    }

    fn no_text(&self, at: usize) -> String {
        format!("{}: byte {at} is no text: save the file as UTF-8", self.label)
    }
}

fn accepted(object: Vec<u8>) -> Result<Object, Refused> {
    Object::of(object).map_err(|No { number, .. }| Refused { number, at: None, says: refusals::of(number).says.to_string() })
}

/// The two objects of a scene as shapes of a register.
pub fn objects_of(scene: &[u8]) -> Vec<Named> {
    let second = bytes::second(scene);
    let named = |name: &str, bytes: &[u8]| {
        let object = Object::of(bytes.to_vec());
        let object = object.map_err(|No { number, place }| Refused { number, at: Some(place), says: refusals::of(number).says.to_string() });
        Named { name: name.to_string(), object }
    };
    vec![named("F", &scene[..second]), named("G", &scene[second..])]
}

fn chosen_of(shapes: Vec<Named>, name: &str, label: &str) -> Result<Named, String> {
    let by_name = shapes.iter().position(|shape| shape.name == name);
    let by_number = || name.parse::<usize>().ok().filter(|number| (1..=shapes.len()).contains(number)).map(|number| number - 1);
    match by_name.or_else(by_number) {
        Some(at) => shapes.into_iter().nth(at).ok_or_else(String::new),
        None => Err(format!("{label} has no shape called \"{name}\": {}", some_names(&shapes))),
    }
}

/// The first names of a file, for messages.
pub fn some_names(shapes: &[Named]) -> String {
    let first: Vec<String> = shapes.iter().take(5).map(|shape| format!("\"{}\"", shape.name)).collect();
    let more = if shapes.len() > 5 { format!(" and {} more", shapes.len() - 5) } else { String::new() };
    format!("it has {}{more}", first.join(", "))
}

/// The line at fault with a sign under the column, cut to what a terminal shows.
fn excerpt(text: &str, line: usize, column: usize) -> String {
    let Some(found) = text.lines().nth(line - 1).filter(|line| !line.trim().is_empty()) else {
        return String::new();
    };
    let start = (column - 1).saturating_sub(50);
    let shown: String = found.chars().skip(start).take(72).map(|c| if c.is_whitespace() || c.is_control() { ' ' } else { c }).collect();
    format!("\n  {}\n  {}^", shown.trim_end(), " ".repeat(column - 1 - start))
}

#[cfg(test)]
mod tests {
    use super::*;
    use crate::decimal::Decimal;

    fn read(bytes: &[u8], ending: &str, round: bool) -> Result<Held, String> {
        let grid = Grid::new(Decimal::ONE, [Decimal::ZERO; 2], round);
        Source::read(bytes, "file", "file", ending, None)?.held(&mut Reading { grid, column: None, name: None })
    }

    fn shapes(bytes: &[u8], ending: &str) -> usize {
        match read(bytes, ending, false) {
            Ok(Held::Shapes(shapes)) => shapes.iter().filter(|shape| shape.object.is_ok()).count(),
            _ => 0,
        }
    }

    const SQUARE: &str = "POLYGON ((0 0, 4 0, 4 4, 0 4, 0 0), (1 1, 2 1, 2 2, 1 1))";

    fn files() -> Vec<(Vec<u8>, &'static str)> {
        let hex = "01050000000100000001020000000200000000000000000000000000000000000000000000000000f03f000000000000f0bf";
        let geojson =
            "{\"type\": \"FeatureCollection\", \"features\": [{\"type\": \"Feature\", \"id\": 3, \"properties\": {\"name\": \"\u{e9}\\u00e9\"},
            \"geometry\": {\"type\": \"MultiPolygon\", \"coordinates\": [[[[0, 0], [4.0, 0], [4e0, 4], [0, 0]]]]}}]}";
        let scene = ["POINT (1 1)", SQUARE].map(|text| wkt::read(text, &mut Grid::as_it_stands()).unwrap().remove(0).object.unwrap()).concat();
        vec![
            (format!("# a\n{SQUARE}\nSRID=4;MULTIPOINT ((0 0), EMPTY, 1 1);\nMULTILINESTRING ((0 0, 1 1))\n").into_bytes(), ""),
            (geojson.as_bytes().to_vec(), ""),
            (format!("id;name;wkt\n1;\"a \"\"b\"\"\";\"{SQUARE}\"\n2;;{hex}\n").into_bytes(), ""),
            (format!("{hex}\n{hex}\n").into_bytes(), ""),
            (wkb::unspelt(hex.as_bytes()).unwrap(), ""),
            (scene.clone(), ""),
            (crate::show::all(&scene).into_bytes(), ""),
        ]
    }

    #[test]
    fn told_by_their_first_bytes() {
        let found: Vec<usize> = files().iter().map(|(bytes, ending)| shapes(bytes, ending)).collect();
        assert_eq!(found, [3, 1, 2, 2, 1, 0, 0]);
        assert_eq!(shapes(b"POINT (0 0)", "wkt"), 1);
        assert!(files()[5..].iter().all(|(bytes, ending)| matches!(read(bytes, ending, false), Ok(Held::Scene(_)))));
    }

    /// Files cut at each byte, and with each byte changed, are read or refused, and bring nothing down.
    #[test]
    fn any_file() {
        for (bytes, _) in files() {
            for ending in ["", "wkt", "json", "csv", "wkb"] {
                (0..bytes.len())
                    .filter_map(|length| read(&bytes[..length], ending, true).err())
                    .for_each(|message| assert!(message.starts_with("file")));
            }
            for at in 0..bytes.len() {
                for value in [0, 1, 3, 10, 32, 34, 35, 40, 41, 44, 45, 46, 48, 57, 59, 69, 91, 92, 93, 101, 123, 125, 127, 128, 195, 239, 255] {
                    let mut changed = bytes.clone();
                    changed[at] = value;
                    for round in [false, true] {
                        let read = read(&changed, "", round);
                        assert!(read.as_ref().err().is_none_or(|message| message.starts_with("file")));
                    }
                }
            }
        }
    }
}
