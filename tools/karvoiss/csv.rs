//! CSV to objects: a heading, and a row for each shape, with a column of well-known text or of well-known binary in hexadecimal. Fields are parted by commas, semicolons or tabs,
//! as the heading has them, and may stand in quotes. A row's name is its column `name`, else `id`. And fields written as CSV.

use crate::grid::Grid;
use crate::refusals::Refused;
use crate::shape::{Fault, Item};
use crate::{wkb, wkt};
use std::borrow::Cow;

/// What a column of shapes is called, unless the command line says.
const SHAPES: [&str; 8] = ["wkt", "geom", "geometry", "the_geom", "wkt_geom", "wkb", "wkb_geometry", "shape"];
const NAMES: [&str; 2] = ["name", "id"];

struct Field<'a> {
    at: usize,
    text: Cow<'a, str>,
}

/// `column` and `name` are the headings of the shapes and of their names, if others than the usual ones.
pub fn read(text: &str, column: Option<&str>, name: Option<&str>, grid: &mut Grid) -> Result<Vec<Item>, Fault> {
    let mut reader = Reader { text, at: if text.starts_with('\u{feff}') { 3 } else { 0 }, between: between(text) };
    let heading = reader.row()?;
    let shapes = column_of(&heading, column, &SHAPES)?.ok_or_else(|| no_column(&heading))?;
    let names = column_of(&heading, name, &NAMES)?;
    let mut items = Vec::new();
    while reader.at < text.len() {
        let row = reader.row()?;
        if row.len() == 1 && row[0].text.is_empty() {
            continue;
        }
        let named = names.and_then(|column| row.get(column)).map(|field| field.text.trim().to_string()).filter(|name| !name.is_empty());
        let Some(field) = row.get(shapes) else {
            return Err(Fault { at: row[0].at, message: format!("this row ends before field {}, which has the shape", shapes + 1) });
        };
        items.push(Item { name: named, at: field.at, object: object(field, grid) });
    }
    Ok(items)
}

/// Whether a first line looks like a heading with a column of shapes.
pub fn is_heading(line: &str) -> bool {
    let mut reader = Reader { text: line, at: 0, between: between(line) };
    reader.row().is_ok_and(|heading| matches!(column_of(&heading, None, &SHAPES), Ok(Some(_))))
}

/// The sign between fields: of the three the one that the heading has most of.
fn between(text: &str) -> char {
    let heading = text.lines().next().unwrap_or("");
    [',', ';', '\t'].into_iter().rev().max_by_key(|sign| heading.matches(*sign).count()).unwrap_or(',')
}

fn column_of(heading: &[Field], wanted: Option<&str>, usual: &[&str]) -> Result<Option<usize>, Fault> {
    let place = |name: &str| heading.iter().position(|field| field.text.trim().eq_ignore_ascii_case(name));
    match wanted {
        None => Ok(usual.iter().find_map(|name| place(name))),
        Some(name) => {
            place(name).map(Some).ok_or_else(|| Fault { at: 0, message: format!("no column is called \"{name}\": there are {}", listed(heading)) })
        }
    }
}

fn listed(heading: &[Field]) -> String {
    heading.iter().map(|field| field.text.trim()).collect::<Vec<_>>().join(", ")
}

fn no_column(heading: &[Field]) -> Fault {
    let message = format!("none of the columns is called {}: say with --column which has the shapes: {}", SHAPES[..4].join(", "), listed(heading));
    Fault { at: 0, message }
}

/// The one shape of a field.
fn object(field: &Field, grid: &mut Grid) -> Result<Vec<u8>, Refused> {
    let text = field.text.trim();
    if let Some(bytes) = wkb::unspelt(text.as_bytes()) {
        // two digits a byte
        return wkb::object(&bytes, grid).map_err(|no| Refused { at: no.at.map(|at| field.at + 2 * at), ..no });
    }
    let refused = |at: usize, says: String| Refused { number: 24, at: Some(field.at + at), says };
    let mut items = wkt::read(&field.text, grid).map_err(|fault| refused(fault.at, fault.message))?;
    match items.len() {
        1 => items.remove(0).object.map_err(|no| Refused { at: no.at.map(|at| field.at + at), ..no }),
        0 => Err(refused(0, "there is no shape in this row".to_string())),
        _ => Err(refused(items[1].at, "a second shape in this row".to_string())),
    }
}

struct Reader<'a> {
    text: &'a str,
    at: usize,
    between: char,
}

impl<'a> Reader<'a> {
    fn row(&mut self) -> Result<Vec<Field<'a>>, Fault> {
        let mut row = Vec::new();
        loop {
            row.push(self.field()?);
            let rest = &self.text[self.at..];
            if let Some(sign) = rest.chars().next() {
                self.at += sign.len_utf8();
                if sign == self.between {
                    continue;
                }
            }
            return Ok(row);
        }
    }

    /// To the sign between fields or the end of the line, which is left.
    fn field(&mut self) -> Result<Field<'a>, Fault> {
        let rest = &self.text[self.at..];
        if rest.starts_with('"') {
            return self.quoted();
        }
        let length = rest.find([self.between, '\n']).unwrap_or(rest.len());
        let field = Field { at: self.at, text: Cow::Borrowed(rest[..length].trim_end_matches('\r')) };
        self.at += length;
        Ok(field)
    }

    /// Two quotes stand for one.
    fn quoted(&mut self) -> Result<Field<'a>, Fault> {
        let from = self.at + 1;
        let mut end = from;
        loop {
            let Some(quote) = self.text[end..].find('"') else {
                return Err(Fault { at: self.at, message: "a quote that does not close".to_string() });
            };
            end += quote;
            if !self.text[end + 1..].starts_with('"') {
                break;
            }
            end += 2;
        }
        let inside = &self.text[from..end];
        let text = if inside.contains('"') { Cow::Owned(inside.replace("\"\"", "\"")) } else { Cow::Borrowed(inside) };
        self.at = end + 1;
        let rest = &self.text[self.at..];
        let after = rest.find([self.between, '\n']).unwrap_or(rest.len());
        if !rest[..after].trim().is_empty() {
            return Err(Fault { at: self.at, message: "text behind a closing quote".to_string() });
        }
        self.at += after;
        Ok(Field { at: from, text })
    }
}

/// A field as CSV has it.
pub fn quoted(text: &str) -> Cow<'_, str> {
    if text.contains(['"', ',', '\n', '\r']) { Cow::Owned(format!("\"{}\"", text.replace('"', "\"\""))) } else { Cow::Borrowed(text) }
}

#[cfg(test)]
mod tests {
    use super::*;

    fn items(text: &str) -> Vec<Item> {
        read(text, None, None, &mut Grid::as_it_stands()).unwrap()
    }

    fn fault(text: &str) -> (usize, String) {
        let Fault { at, message } = read(text, None, None, &mut Grid::as_it_stands()).err().unwrap();
        (at, message)
    }

    #[test]
    fn rows() {
        for text in [
            "\u{feff}id,Name,WKT\r\n1,\"Ashe, \"\"old\"\"\",\"LINESTRING (0 0, 1 1)\"\r\n\r\n2,,POINT (0 0)",
            "geom;name\nLINESTRING (0 0, 1 1);\"Ashe, \"\"old\"\"\"\n010100000000000000000000000000000000000000;\n",
        ] {
            let items = items(text);
            assert_eq!(items.iter().map(|item| item.name.as_deref()).collect::<Vec<_>>(), [Some("Ashe, \"old\""), None], "{text}");
            assert!(items.iter().all(|item| item.object.is_ok()), "{text}");
        }
        let chosen = read("name\tplace\tcode\nAshe\tPOINT (0 0)\tx1\n", Some("PLACE"), Some("code"), &mut Grid::as_it_stands()).unwrap();
        assert_eq!(chosen[0].name.as_deref(), Some("x1"));
    }

    #[test]
    fn refused_alone() {
        let items = items("wkt\nPOINT (1.5 0)\n\"POINT (0 0\"\nPOINT (0 0) POINT (1 1)\n\" \"\nPOINT (2 2)\n");
        let refused: Vec<_> = items.iter().filter_map(|item| item.object.as_ref().err()).map(|no| (no.number, no.at)).collect();
        assert_eq!(refused, [(25, Some(11)), (24, Some(29)), (24, Some(43)), (24, Some(56))]);
    }

    #[test]
    fn no_table() {
        assert_eq!(
            fault("a,b\n1,2\n"),
            (0, "none of the columns is called wkt, geom, geometry, the_geom: say with --column which has the shapes: a, b".to_string())
        );
        assert_eq!(fault("id,wkt\n1\n"), (7, "this row ends before field 2, which has the shape".to_string()));
        assert_eq!(fault("wkt\n\"POINT (0 0)\n").1, "a quote that does not close");
        assert_eq!(fault("wkt\n\"POINT (0 0)\" x\n").1, "text behind a closing quote");
        assert!(is_heading("id;WKT") && is_heading("geom") && !is_heading("POINT (0 0)") && !is_heading("a,b"));
    }

    #[test]
    fn written() {
        assert_eq!(["a", "a, b", "say \"a\""].map(|text| quoted(text).into_owned()), ["a", "\"a, b\"", "\"say \"\"a\"\"\""]);
    }
}
