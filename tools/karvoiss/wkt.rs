//! Well-known text to objects. Geometries follow each other, on lines of their own or not; lines that begin with # are passed over, and a leading SRID is. A geometry of a
//! kind that is none of ours, or with a coordinate that is not on the grid, is refused by itself, and the others are read; text that is no well-known text is a fault.

use crate::bytes::Kind;
use crate::grid::Grid;
use crate::refusals::Refused;
use crate::shape::{Fault, Item, Path, Placed, Shape};

const KINDS: &str = "write POINT, LINESTRING, POLYGON, MULTIPOINT, MULTILINESTRING or MULTIPOLYGON";

/// Kinds that well-known text has and we have not.
const OTHERS: [(&str, &str); 11] = [
    ("GEOMETRYCOLLECTION", "a collection"),
    ("CIRCULARSTRING", "a curve"),
    ("COMPOUNDCURVE", "a curve"),
    ("CURVEPOLYGON", "a polygon of curves"),
    ("MULTICURVE", "curves"),
    ("MULTISURFACE", "surfaces"),
    ("CURVE", "a curve"),
    ("SURFACE", "a surface"),
    ("POLYHEDRALSURFACE", "a surface in space"),
    ("TIN", "a surface in space"),
    ("TRIANGLE", "a triangle"),
];

/// All geometries of a text.
pub fn read(text: &str, grid: &mut Grid) -> Result<Vec<Item>, Fault> {
    let mut reader = Reader::new(text, grid);
    let mut items = Vec::new();
    loop {
        while reader.sign == Sign::Other(';') {
            reader.step();
        }
        if reader.sign == Sign::End {
            return Ok(items);
        }
        items.push(reader.item()?);
    }
}

/// The word is one that a geometry begins with.
pub fn is_kind(word: &str) -> bool {
    let word = word.to_ascii_uppercase();
    word == "SRID" || is_ours(&word) || OTHERS.iter().any(|(name, _)| *name == word) || dimensions(&word).is_some()
}

fn is_ours(word: &str) -> bool {
    ["POINT", "LINESTRING", "POLYGON"].contains(&word.strip_prefix("MULTI").unwrap_or(word))
}

/// Z, M or ZM where a kind is written together with it.
fn dimensions(word: &str) -> Option<&str> {
    ["ZM", "Z", "M"].into_iter().find(|end| word.strip_suffix(end).is_some_and(|kind| is_ours(kind) || OTHERS.iter().any(|(name, _)| *name == kind)))
}

#[derive(Clone, Copy, PartialEq, Debug)]
enum Sign<'a> {
    /// Letters, digits and what numbers are written with.
    Word(&'a str),
    Open,
    Close,
    Comma,
    Other(char),
    End,
}

impl std::fmt::Display for Sign<'_> {
    fn fmt(&self, f: &mut std::fmt::Formatter) -> std::fmt::Result {
        match self {
            Sign::Word(word) => write!(f, "\"{word}\""),
            Sign::Open => write!(f, "\"(\""),
            Sign::Close => write!(f, "\")\""),
            Sign::Comma => write!(f, "\",\""),
            Sign::Other(c) => write!(f, "\"{c}\""),
            Sign::End => write!(f, "the end of the text"),
        }
    }
}

struct Reader<'a, 'g> {
    text: &'a str,
    /// Where the sign stands and where the next one is looked for.
    at: usize,
    next: usize,
    sign: Sign<'a>,
    grid: &'g mut Grid,
    /// The first thing that makes the present geometry none of ours.
    refused: Option<Refused>,
}

impl<'a, 'g> Reader<'a, 'g> {
    fn new(text: &'a str, grid: &'g mut Grid) -> Reader<'a, 'g> {
        let mut reader = Reader { text, at: 0, next: 0, sign: Sign::End, grid, refused: None };
        reader.step();
        reader
    }

    /// To the next sign; the end is never passed.
    fn step(&mut self) {
        self.pass_white();
        self.at = self.next;
        let rest = &self.text[self.at..];
        let Some(first) = rest.chars().next() else {
            self.sign = Sign::End;
            return;
        };
        let length = rest.find(|c| !in_word(c)).unwrap_or(rest.len()).max(first.len_utf8());
        self.next = self.at + length;
        self.sign = match first {
            '(' => Sign::Open,
            ')' => Sign::Close,
            ',' => Sign::Comma,
            c if in_word(c) => Sign::Word(&rest[..length]),
            c => Sign::Other(c),
        };
    }

    /// White space, a byte order mark, and lines that begin with #.
    fn pass_white(&mut self) {
        loop {
            let rest = &self.text[self.next..];
            self.next += rest.find(|c: char| !c.is_whitespace() && c != '\u{feff}').unwrap_or(rest.len());
            if !self.text[self.next..].starts_with('#') || !self.is_line_start() {
                return;
            }
            self.next += self.text[self.next..].find('\n').unwrap_or(self.text.len() - self.next);
        }
    }

    fn is_line_start(&self) -> bool {
        let line = self.text[..self.next].rsplit('\n').next().unwrap_or("");
        line.trim_start_matches('\u{feff}').trim().is_empty()
    }

    fn fault(&self, message: String) -> Fault {
        Fault { at: self.at, message }
    }

    fn expected(&self, what: &str) -> Fault {
        self.fault(format!("expected {what}, found {}", self.sign))
    }

    fn expect(&mut self, sign: Sign) -> Result<(), Fault> {
        if self.sign != sign {
            return Err(self.expected(&sign.to_string()));
        }
        self.step();
        Ok(())
    }

    fn refuse(&mut self, number: u32, says: String) {
        let at = Some(self.at);
        self.refused.get_or_insert(Refused { number, at, says });
    }

    fn item(&mut self) -> Result<Item, Fault> {
        self.srid()?;
        let (at, placed) = (self.at, self.grid.placed());
        let shape = self.geometry()?;
        let object = match self.refused.take() {
            Some(refused) => Err(refused),
            None => shape.object().inspect(|object| self.grid.note(placed, object)),
        };
        Ok(Item { name: None, at, object })
    }

    /// SRID=n; says which system coordinates belong to, and they are taken as they stand.
    fn srid(&mut self) -> Result<(), Fault> {
        if !matches!(self.sign, Sign::Word(word) if word.eq_ignore_ascii_case("SRID")) {
            return Ok(());
        }
        self.step();
        self.expect(Sign::Other('='))?;
        self.step();
        self.expect(Sign::Other(';'))
    }

    fn geometry(&mut self) -> Result<Shape, Fault> {
        let Sign::Word(name) = self.sign else {
            return Err(self.expected("a kind of shape"));
        };
        let upper = name.to_ascii_uppercase();
        if let Some(end) = dimensions(&upper) {
            self.refuse(24, space(end));
            return self.passed_over();
        }
        if let Some((_, what)) = OTHERS.iter().find(|(kind, _)| *kind == upper) {
            self.refuse(24, format!("{upper} is {what}, and no points, line or region"));
            return self.passed_over();
        }
        if !is_ours(&upper) {
            return Err(self.fault(format!("\"{name}\" is no kind of shape: {KINDS}")));
        }
        self.step();
        if let Sign::Word(word) = self.sign {
            if ["Z", "M", "ZM"].contains(&word.to_ascii_uppercase().as_str()) {
                self.refuse(24, space(&word.to_ascii_uppercase()));
                return self.passed_over();
            }
        }
        self.of_kind(&upper)
    }

    fn of_kind(&mut self, name: &str) -> Result<Shape, Fault> {
        let (kind, parts) = match name {
            "POINT" => (Kind::Points, self.one(Reader::point_in_parentheses)?.into_iter().map(|path| vec![path]).collect()),
            "MULTIPOINT" => (Kind::Points, self.list(Reader::point_of_several)?.into_iter().flatten().map(|path| vec![path]).collect()),
            "LINESTRING" => (Kind::Line, vec![vec![self.path()?]]),
            "MULTILINESTRING" => (Kind::Line, self.list(Reader::path)?.into_iter().map(|path| vec![path]).collect()),
            "POLYGON" => (Kind::Region, vec![self.list(Reader::path)?]),
            _ => (Kind::Region, self.list(|reader| reader.list(Reader::path))?),
        };
        Ok(Shape { kind, parts })
    }

    /// A geometry that is none of ours, to where its parentheses close.
    fn passed_over(&mut self) -> Result<Shape, Fault> {
        let mut open = 0;
        while matches!(self.sign, Sign::Word(word) if !word.eq_ignore_ascii_case("EMPTY")) {
            self.step();
        }
        loop {
            match self.sign {
                Sign::Open => open += 1,
                Sign::Close => open -= 1,
                Sign::End => return Err(self.expected("\")\"")),
                _ => {}
            }
            self.step();
            if open <= 0 {
                return Ok(Shape { kind: Kind::Points, parts: Vec::new() });
            }
        }
    }

    fn empty(&mut self) -> bool {
        let empty = matches!(self.sign, Sign::Word(word) if word.eq_ignore_ascii_case("EMPTY"));
        if empty {
            self.step();
        }
        empty
    }

    /// EMPTY, or one thing that begins with a parenthesis.
    fn one<T>(&mut self, thing: fn(&mut Self) -> Result<T, Fault>) -> Result<Option<T>, Fault> {
        if self.empty() {
            return Ok(None);
        }
        if self.sign != Sign::Open {
            return Err(self.expected("\"(\" or EMPTY"));
        }
        thing(self).map(Some)
    }

    /// EMPTY, or items in parentheses with commas between them.
    fn list<T>(&mut self, item: fn(&mut Self) -> Result<T, Fault>) -> Result<Vec<T>, Fault> {
        if self.empty() {
            return Ok(Vec::new());
        }
        if self.sign != Sign::Open {
            return Err(self.expected("\"(\" or EMPTY"));
        }
        let mut items = Vec::new();
        loop {
            self.step();
            items.push(item(self)?);
            if self.sign != Sign::Comma {
                break;
            }
        }
        if self.sign != Sign::Close {
            return Err(self.expected("\",\" or \")\""));
        }
        self.step();
        Ok(items)
    }

    fn path(&mut self) -> Result<Path, Fault> {
        let at = self.at;
        Ok(Path { points: self.list(Reader::point)?, at })
    }

    fn point_in_parentheses(&mut self) -> Result<Path, Fault> {
        let at = self.at;
        self.step();
        let point = self.point()?;
        self.expect(Sign::Close)?;
        Ok(Path { points: vec![point], at })
    }

    /// The points of a MULTIPOINT stand in parentheses of their own or without.
    fn point_of_several(&mut self) -> Result<Option<Path>, Fault> {
        let at = self.at;
        if self.empty() {
            return Ok(None);
        }
        match self.sign {
            Sign::Open => self.point_in_parentheses().map(Some),
            _ => Ok(Some(Path { points: vec![self.point()?], at })),
        }
    }

    fn point(&mut self) -> Result<Placed, Fault> {
        let x_at = self.at;
        let x = self.coordinate("a coordinate", 0)?;
        let y_at = self.at;
        let y = self.coordinate("the second coordinate of the point", 1)?;
        while let Sign::Word(word) = self.sign {
            self.refuse(24, format!("a third coordinate, {word}: points have x and y alone, without Z and M"));
            self.step();
        }
        Ok(Placed { x, y, at: [x_at, y_at] })
    }

    fn coordinate(&mut self, what: &str, axis: usize) -> Result<f64, Fault> {
        let Sign::Word(word) = self.sign else {
            return Err(self.expected(what));
        };
        if !word.starts_with(|c: char| c.is_ascii_digit() || "+-.".contains(c)) && !["NAN", "INF"].contains(&word.to_ascii_uppercase().as_str()) {
            return Err(self.expected(what));
        }
        let value = self.grid.place(word, axis).unwrap_or_else(|why| {
            self.refuse(25, why);
            0.0
        });
        self.step();
        Ok(value)
    }
}

fn space(end: &str) -> String {
    format!("with {end}: points have x and y alone")
}

fn in_word(c: char) -> bool {
    c.is_alphanumeric() || "+-._".contains(c)
}

#[cfg(test)]
mod tests {
    use super::*;

    fn fault(text: &str) -> (usize, String) {
        match read(text, &mut Grid::as_it_stands()) {
            Err(Fault { at, message }) => (at, message),
            Ok(_) => panic!("{text} was read"),
        }
    }

    /// The number, place and words of a text's only shape.
    fn refused(text: &str) -> (u32, Option<usize>, String) {
        match read(text, &mut Grid::as_it_stands()).unwrap().remove(0).object {
            Err(Refused { number, at, says }) => (number, at, says),
            Ok(_) => panic!("{text} was taken"),
        }
    }

    fn objects(text: &str) -> Vec<Vec<u8>> {
        read(text, &mut Grid::as_it_stands()).unwrap().into_iter().map(|item| item.object.unwrap()).collect()
    }

    #[test]
    fn one_shape_in_many_words() {
        let square = objects("POLYGON ((0 0, 2 0, 2 2, 0 2, 0 0))");
        let texts = [
            "\u{feff}# a\n multipolygon(((2 2,0 2,0 0,2 0,2.0 2e0)))",
            "SRID=4326;POLYGON((0 0,0 2,\n2 2,2 0,0 0));",
            "Polygon ((0 0,2 0,2 2,0 2,0 0,0 0))",
        ];
        for text in texts {
            assert_eq!(objects(text), square, "{text}");
        }
        assert_eq!(objects("MULTIPOINT (0 0, (2 2), EMPTY, 0 0)"), objects("MULTIPOINT ((2 2), (0 0))"));
        assert_eq!(objects("MULTILINESTRING ((4 3, 4 0), EMPTY, (4 0, 0 0, 4 0))"), objects("LINESTRING (0 0, 4 0, 4 3)"));
        assert_eq!(objects("POINT EMPTY POLYGON EMPTY\r\nMULTILINESTRING EMPTY").len(), 3);
    }

    #[test]
    fn refused_alone() {
        assert_eq!(refused("POINT (1 1.5)"), (25, Some(9), "y 1.5 is not a whole number: enlarge with --scale, or round with --round".to_string()));
        assert_eq!(refused("POINT (10000001 0)"), (25, Some(7), "10000001 is outside the range, -10000000 to 10000000".to_string()));
        assert_eq!(refused("POINT (0 1e400)").0, 25);
        assert_eq!(refused("POINT (nan 0)"), (25, Some(7), "nan is not a number".to_string()));
    }

    #[test]
    fn kinds_that_are_none_of_ours() {
        for text in [
            "CIRCULARSTRING (0 0, 1 1, 2 0)",
            "GEOMETRYCOLLECTION (POINT (0 0), LINESTRING (0 0, 1 1))",
            "CURVEPOLYGON EMPTY",
            "POINT Z (0 0 0)",
            "POINTZM (0 0 0 0)",
        ] {
            let items = read(&format!("{text}\nPOINT (1 1)"), &mut Grid::as_it_stands()).unwrap();
            assert_eq!((items.len(), items[0].object.as_ref().unwrap_err().number, items[1].object.is_ok()), (2, 24, true), "{text}");
        }
        assert_eq!(refused("POINT (0 0 7)").2, "a third coordinate, 7: points have x and y alone, without Z and M");
        assert_eq!(refused("TIN EMPTY").2, "TIN is a surface in space, and no points, line or region");
    }

    #[test]
    fn rings_and_parts() {
        assert_eq!(refused("POLYGON ((0 0, 4 0, 4 4, 0 4))"), (26, Some(9), "this ring's last point is not its first".to_string()));
        assert_eq!(refused("POLYGON ((0 0, 4 0, 0 0))").0, 24);
        assert_eq!(refused("MULTILINESTRING ((0 0, 1 1), (2 2))"), (24, Some(29), "a part needs two points or more; this one has one".to_string()));
        assert_eq!(refused("LINESTRING (0 0, 4 4, 4 0, 0 4)").0, 12);
    }

    #[test]
    fn no_well_known_text() {
        assert_eq!(fault("CIRCLE (0 0, 4)"), (0, format!("\"CIRCLE\" is no kind of shape: {KINDS}")));
        assert_eq!(fault("(0 0)"), (0, "expected a kind of shape, found \"(\"".to_string()));
        assert_eq!(fault("POINT"), (5, "expected \"(\" or EMPTY, found the end of the text".to_string()));
        assert_eq!(fault("LINESTRING 0 0, 1 1"), (11, "expected \"(\" or EMPTY, found \"0\"".to_string()));
        assert_eq!(fault("POINT (0)"), (8, "expected the second coordinate of the point, found \")\"".to_string()));
        assert_eq!(fault("POINT ()"), (7, "expected a coordinate, found \")\"".to_string()));
        assert_eq!(fault("POINT (x y)"), (7, "expected a coordinate, found \"x\"".to_string()));
        assert_eq!(fault("POINT (0 0, 1 1)"), (10, "expected \")\", found \",\"".to_string()));
        assert_eq!(fault("LINESTRING (0 0, 1 1"), (20, "expected \",\" or \")\", found the end of the text".to_string()));
        assert_eq!(fault("TIN ((0 0"), (9, "expected \")\", found the end of the text".to_string()));
    }
}
