//! GeoJSON (RFC 7946) to objects: geometries, features and collections of features, one after the other or in a list. A feature's name is its property `name`, else `id`, in
//! letters of either case, else the feature's own id. A geometry that is none of ours is refused by itself, and the others are read.

use crate::bytes::Kind;
use crate::grid::Grid;
use crate::json::{self, Is, Value};
use crate::refusals::Refused;
use crate::shape::{Fault, Item, Path, Placed, Shape};

/// `name` is the property that names a feature, if another than the usual ones.
pub fn read(text: &str, name: Option<&str>, grid: &mut Grid) -> Result<Vec<Item>, Fault> {
    let mut items = Vec::new();
    for value in json::read(text)? {
        found(&value, name, grid, &mut items)?;
    }
    Ok(items)
}

fn found(value: &Value, name: Option<&str>, grid: &mut Grid, items: &mut Vec<Item>) -> Result<(), Fault> {
    match kind(value)? {
        "FeatureCollection" => {
            let features = member(value, "features")?;
            let list = features.list().ok_or(wrong(features, "\"features\" is a list"))?;
            list.iter().try_for_each(|feature| found(feature, name, grid, items))
        }
        "Feature" => {
            let geometry = member(value, "geometry")?;
            items.push(Item { name: named(value, name)?, at: value.at, object: object(geometry, grid)? });
            Ok(())
        }
        _ => {
            items.push(Item { name: None, at: value.at, object: object(value, grid)? });
            Ok(())
        }
    }
}

fn wrong(value: &Value, rule: &str) -> Fault {
    Fault { at: value.at, message: format!("no GeoJSON: {rule}, and here is {}", value.what()) }
}

fn kind<'v>(value: &'v Value) -> Result<&'v str, Fault> {
    match value.member("type") {
        Some(kind) => kind.text().ok_or(wrong(kind, "\"type\" is a string")),
        None => Err(Fault { at: value.at, message: format!("no GeoJSON: this is {} without a \"type\"", value.what()) }),
    }
}

fn member<'v, 'a>(value: &'v Value<'a>, name: &str) -> Result<&'v Value<'a>, Fault> {
    value.member(name).ok_or(Fault { at: value.at, message: format!("no GeoJSON: this object has no \"{name}\"") })
}

fn named(feature: &Value, wanted: Option<&str>) -> Result<Option<String>, Fault> {
    let properties = match feature.member("properties").map(|value| &value.is) {
        Some(Is::Members(members)) => &members[..],
        _ => &[],
    };
    let property = |name: &str| properties.iter().find(|(key, _)| key.eq_ignore_ascii_case(name)).and_then(|(_, value)| word(value));
    match wanted {
        Some(name) if property(name).is_none() => {
            Err(Fault { at: feature.at, message: format!("this feature has no property \"{name}\" to be named by") })
        }
        Some(name) => Ok(property(name)),
        None => Ok(property("name").or_else(|| property("id")).or_else(|| feature.member("id").and_then(word))),
    }
}

fn word(value: &Value) -> Option<String> {
    match &value.is {
        Is::Text(text) if !text.is_empty() => Some(text.clone()),
        Is::Number(number) => Some(number.to_string()),
        _ => None,
    }
}

/// The object of a geometry, or why it is none.
fn object(geometry: &Value, grid: &mut Grid) -> Result<Result<Vec<u8>, Refused>, Fault> {
    if matches!(geometry.is, Is::Null) {
        return Ok(Err(other(geometry, "this feature has no geometry".to_string())));
    }
    let kind = kind(geometry)?;
    let Some(of) = kind_of(kind) else {
        return Ok(Err(other(geometry, format!("{kind} is no points, line or region"))));
    };
    let placed = grid.placed();
    let mut reader = Reader { grid, refused: None };
    let shape = Shape { kind: of, parts: reader.parts(kind, member(geometry, "coordinates")?)? };
    Ok(match reader.refused {
        Some(refused) => Err(refused),
        None => shape.object().inspect(|object| reader.grid.note(placed, object)),
    })
}

/// Of the kinds that GeoJSON has, those that are ours.
fn kind_of(kind: &str) -> Option<Kind> {
    match kind.strip_prefix("Multi").unwrap_or(kind) {
        "Point" => Some(Kind::Points),
        "LineString" => Some(Kind::Line),
        "Polygon" => Some(Kind::Region),
        _ => None,
    }
}

fn other(value: &Value, says: String) -> Refused {
    Refused { number: 24, at: Some(value.at), says }
}

struct Reader<'g> {
    grid: &'g mut Grid,
    refused: Option<Refused>,
}

impl Reader<'_> {
    fn parts(&mut self, kind: &str, coordinates: &Value) -> Result<Vec<Vec<Path>>, Fault> {
        let list = list(coordinates)?;
        match kind {
            "Point" if list.is_empty() => Ok(Vec::new()),
            "Point" => Ok(vec![vec![self.one_point(coordinates)?]]),
            "MultiPoint" => list.iter().map(|point| Ok(vec![self.one_point(point)?])).collect(),
            "LineString" => Ok(vec![vec![self.path(coordinates)?]]),
            "MultiLineString" => list.iter().map(|part| Ok(vec![self.path(part)?])).collect(),
            "Polygon" => Ok(vec![self.paths(coordinates)?]),
            _ => list.iter().map(|polygon| self.paths(polygon)).collect(),
        }
    }

    fn paths(&mut self, value: &Value) -> Result<Vec<Path>, Fault> {
        list(value)?.iter().map(|path| self.path(path)).collect()
    }

    fn path(&mut self, value: &Value) -> Result<Path, Fault> {
        let points: Result<Vec<Placed>, Fault> = list(value)?.iter().map(|point| self.point(point)).collect();
        Ok(Path { points: points?, at: value.at })
    }

    fn one_point(&mut self, value: &Value) -> Result<Path, Fault> {
        Ok(Path { points: vec![self.point(value)?], at: value.at })
    }

    fn point(&mut self, value: &Value) -> Result<Placed, Fault> {
        let [x, y, rest @ ..] = list(value)? else {
            return Err(Fault { at: value.at, message: "no GeoJSON: a position has two numbers".to_string() });
        };
        if let Some(third) = rest.first() {
            let says = "a third coordinate: points have x and y alone, without Z and M".to_string();
            self.refused.get_or_insert(Refused { number: 24, at: Some(third.at), says });
        }
        Ok(Placed { x: self.coordinate(x, 0)?, y: self.coordinate(y, 1)?, at: [x.at, y.at] })
    }

    fn coordinate(&mut self, value: &Value, axis: usize) -> Result<f64, Fault> {
        let Is::Number(word) = value.is else {
            return Err(wrong(value, "a coordinate is a number"));
        };
        Ok(self.grid.place(word, axis).unwrap_or_else(|says| {
            self.refused.get_or_insert(Refused { number: 25, at: Some(value.at), says });
            0.0
        }))
    }
}

fn list<'v, 'a>(value: &'v Value<'a>) -> Result<&'v [Value<'a>], Fault> {
    value.list().ok_or(wrong(value, "coordinates are lists"))
}

#[cfg(test)]
mod tests {
    use super::*;
    use crate::wkt;

    fn items(text: &str) -> Vec<Item> {
        read(text, None, &mut Grid::as_it_stands()).unwrap()
    }

    fn fault(text: &str) -> String {
        read(text, None, &mut Grid::as_it_stands()).err().unwrap().message
    }

    #[test]
    fn each_kind() {
        let pairs = [
            (r#"{"type": "Point", "coordinates": [1, 2]}"#, "POINT (1 2)"),
            (r#"{"type": "Point", "coordinates": []}"#, "POINT EMPTY"),
            (r#"{"coordinates": [[1, 2], [3, 4.0]], "type": "MultiPoint"}"#, "MULTIPOINT (1 2, 3 4)"),
            (r#"{"type": "LineString", "coordinates": [[1, 2], [3, 4]]}"#, "LINESTRING (1 2, 3 4)"),
            (r#"{"type": "MultiLineString", "coordinates": [[[1, 2], [3, 4]], [[5, 5], [6, 6]]]}"#, "MULTILINESTRING ((1 2, 3 4), (5 5, 6 6))"),
            (r#"{"type": "Polygon", "coordinates": [[[0, 0], [4, 0], [4, 4], [0, 0]]]}"#, "POLYGON ((0 0, 4 0, 4 4, 0 0))"),
            (r#"{"type": "MultiPolygon", "coordinates": [[[[0, 0], [4, 0], [4, 4], [0, 0]]]]}"#, "POLYGON ((0 0, 4 0, 4 4, 0 0))"),
        ];
        for (text, same) in pairs {
            let expected = wkt::read(same, &mut Grid::as_it_stands()).unwrap().remove(0).object.unwrap();
            assert_eq!(items(text)[0].object.as_ref().unwrap(), &expected, "{text}");
        }
    }

    #[test]
    fn names() {
        let feature = |id: &str, properties: &str| {
            format!(r#"{{"type": "Feature"{id}, "properties": {properties}, "geometry": {{"type": "Point", "coordinates": [0, 0]}}}}"#)
        };
        let features = [
            feature("", r#"{"id": 7, "NAME": "Ashe"}"#),
            feature(r#", "id": "f3""#, r#"{"id": 7}"#),
            feature(r#", "id": "f3""#, r#"{"name": null}"#),
            feature("", "null"),
        ];
        let names = |name: Option<&str>, text: &str| {
            read(text, name, &mut Grid::as_it_stands()).map(|items| items.into_iter().map(|item| item.name).collect::<Vec<_>>())
        };
        let collection = format!(r#"{{"type": "FeatureCollection", "features": [{}]}}"#, features.join(","));
        assert_eq!(names(None, &collection).unwrap(), ["Ashe", "7", "f3", ""].map(|name| (!name.is_empty()).then(|| name.to_string())));
        assert_eq!(names(Some("id"), &features[0]).unwrap(), [Some("7".to_string())]);
        assert!(names(Some("district"), &features[0]).is_err());
        assert_eq!(items(&features.join("\n")).len(), 4);
    }

    #[test]
    fn refused_alone() {
        let point = |coordinates: &str| items(&format!(r#"{{"type": "Point", "coordinates": {coordinates}}}"#)).remove(0).object.unwrap_err();
        assert_eq!((point("[1, 2, 3]").number, point("[1, 2, 3]").at), (24, Some(40)));
        assert_eq!((point("[1, 2.5]").number, point("[1, 2.5]").at), (25, Some(37)));
        let others = [
            r#"{"type": "GeometryCollection", "geometries": []}"#,
            r#"{"type": "Circle"}"#,
            r#"{"type": "Feature", "properties": {}, "geometry": null}"#,
        ];
        others.iter().for_each(|text| assert_eq!(items(text)[0].object.as_ref().unwrap_err().number, 24));
    }

    #[test]
    fn no_geojson() {
        assert_eq!(fault("[1, 2]"), "no GeoJSON: this is a list without a \"type\"");
        assert_eq!(fault(r#"{"type": 3}"#), "no GeoJSON: \"type\" is a string, and here is a number");
        assert_eq!(fault(r#"{"type": "FeatureCollection"}"#), "no GeoJSON: this object has no \"features\"");
        assert_eq!(fault(r#"{"type": "Point", "coordinates": ["1", 2]}"#), "no GeoJSON: a coordinate is a number, and here is a string");
        assert_eq!(fault(r#"{"type": "LineString", "coordinates": [1, 2]}"#), "no GeoJSON: coordinates are lists, and here is a number");
        assert_eq!(fault(r#"{"type": "Point", "coordinates": [1]}"#), "no GeoJSON: a position has two numbers");
    }
}
