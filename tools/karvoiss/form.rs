//! What a file is, by its first bytes and by the ending of its name; and the way to us from files of other programs.

use crate::{csv, wkb, wkt};

#[derive(Clone, Copy, PartialEq, Debug)]
pub enum Form {
    Scene,
    Wkb,
    Text,
}

/// What a text has shapes in.
#[derive(Clone, Copy, PartialEq, Debug)]
pub enum Text {
    Json,
    Table,
    Wkt,
}

const READ: &str = "read are well-known text, well-known binary, GeoJSON, and CSV with a column called wkt or geom (or --column)";

/// By the first bytes; or why they are nothing that is read.
pub fn of(head: &[u8], ending: &str) -> Result<Form, String> {
    if head.is_empty() {
        return Err("is empty".to_string());
    }
    if let Some((_, what)) = FOREIGN.iter().find(|(begins, _)| head.starts_with(begins)) {
        return Err(format!("is {what}"));
    }
    if head[0] == b'T' && head.get(1).is_some_and(|b| *b < b' ') {
        return Ok(Form::Scene);
    }
    let text = !head.iter().any(|b| *b < b' ' && !b.is_ascii_whitespace() && *b != SEPARATOR as u8);
    match text {
        true => Ok(Form::Text),
        false if wkb::begins(head) || ending == "wkb" => Ok(Form::Wkb),
        false if ending == "scene" => Ok(Form::Scene),
        false => Err(format!("is nothing that is read; {READ}")),
    }
}

/// Before each text of a sequence of JSON texts.
const SEPARATOR: char = '\u{1e}';

/// Files of other programs by what they begin with.
const FOREIGN: [(&[u8], &str); 10] = [
    (b"\x00\x00\x27\x0a", "a shapefile: `ogr2ogr -f GeoJSON out.geojson in.shp` makes GeoJSON of it, which is read"),
    (b"SQLite format 3\0", "a GeoPackage or another SQLite file: `ogr2ogr -f GeoJSON out.geojson in.gpkg LAYER` makes GeoJSON of it, which is read"),
    (b"PK\x03\x04", "a zip archive: unpack it first"),
    (b"\x1f\x8b", "compressed: `gzip -dc` makes of it what it was, and - reads standard input"),
    (b"<", "XML (KML, GML, SVG?): `ogr2ogr -f GeoJSON out.geojson IN` makes GeoJSON of the first two, which is read"),
    (b"fgb", "FlatGeobuf: `ogr2ogr -f GeoJSON out.geojson in.fgb` makes GeoJSON of it, which is read"),
    (b"PAR1", "Parquet: `ogr2ogr -f GeoJSON out.geojson in.parquet` makes GeoJSON of it, which is read"),
    (b"\xff\xfe", "text in UTF-16: save it as UTF-8"),
    (b"\xfe\xff", "text in UTF-16: save it as UTF-8"),
    (b"%PDF", "a PDF"),
];

/// By the ending, else by the first word; `column` says that a column of shapes was named.
pub fn text(plain: &str, ending: &str, column: bool) -> Result<Text, String> {
    let word: String = plain.chars().take_while(char::is_ascii_alphanumeric).collect();
    let heading = plain.lines().next().unwrap_or("");
    match ending {
        "geojson" | "json" | "geojsonl" | "geojsons" | "ndjson" => Ok(Text::Json),
        "csv" | "tsv" => Ok(Text::Table),
        _ if plain.starts_with(['{', '[', SEPARATOR]) => Ok(Text::Json),
        "wkt" => Ok(Text::Wkt),
        _ if wkt::is_kind(&word) || plain.starts_with('#') || plain.is_empty() => Ok(Text::Wkt),
        _ if column || csv::is_heading(heading) => Ok(Text::Table),
        _ => {
            let start: String = plain.chars().take(20).map(|c| if c.is_control() { ' ' } else { c }).collect();
            Err(format!("nothing that is read: it begins with \"{}\"; {READ}", start.trim_end()))
        }
    }
}

#[cfg(test)]
mod tests {
    use super::*;

    #[test]
    fn by_the_first_bytes() {
        let heads: [&[u8]; 7] = [b"T\x01P", b"\x01\x03\0\0\0", b"\0\0\0\0\x03", b"POINT", b"\x1e{}", b"", b"\0\0\0\0\0"];
        let found = heads.map(|head| of(head, "").ok());
        assert_eq!(found, [Some(Form::Scene), Some(Form::Wkb), Some(Form::Wkb), Some(Form::Text), Some(Form::Text), None, None]);
        assert_eq!([of(b"\x07", "wkb"), of(b"\x07", "scene")], [Ok(Form::Wkb), Ok(Form::Scene)]);
        assert!(FOREIGN.iter().all(|(begins, _)| of(begins, "wkb").is_err()));
    }

    #[test]
    fn by_the_first_word() {
        let texts = ["{", "[1]", "POINT (0 0)", "# none", "SRID=1;POINT", "PointZ (0 0 0)", "id;WKT", "geom", "id,shape"];
        let found = texts.map(|plain| text(plain, "", false).unwrap());
        assert_eq!(found, [Text::Json, Text::Json, Text::Wkt, Text::Wkt, Text::Wkt, Text::Wkt, Text::Table, Text::Table, Text::Table]);
        assert!(text("a,b", "", false).is_err());
        assert_eq!(["a,b", "{"].map(|plain| text(plain, "csv", false)), [Ok(Text::Table), Ok(Text::Table)]);
        assert_eq!([text("a,b", "", true), text("a,b", "wkt", false), text("a,b", "json", false)], [Ok(Text::Table), Ok(Text::Wkt), Ok(Text::Json)]);
    }
}
