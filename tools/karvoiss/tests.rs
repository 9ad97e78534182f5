//! No bytes bring the listing, the text or the picture down: scenes cut at each byte, and with each byte changed. And text that comes back from bytes.

use crate::answer;
use crate::grid::Grid;
use crate::two::Asked;
use crate::{draw, explain, library, show, wkt};

const TEXTS: [&str; 4] = [
    "MULTIPOINT ((0 0), (2 2))\nLINESTRING (0 0, 4 0, 4 3)\n",
    "LINESTRING (2 2, 4 2, 6 2)\nPOLYGON ((0 0, 4 0, 4 2, 4 4, 0 4, 0 0))\n",
    "POLYGON ((0 0, 4 0, 4 4, 0 4, 0 0), (1 1, 2 1, 2 2, 1 1))\nMULTIPOLYGON EMPTY\n",
    "POLYGON ((0 0, 4 0, 4 4, 0 0))\nPOINT (2 2)\n",
];

fn scene(text: &str) -> Vec<u8> {
    wkt::read(text, &mut Grid::as_it_stands()).unwrap().into_iter().flat_map(|item| item.object.unwrap()).collect()
}

fn all_views(bytes: &[u8]) {
    assert!(!show::all(bytes).is_empty());
    let _ = show::text(bytes);
    for place in [0, bytes.len() / 2, bytes.len(), bytes.len() + 1] {
        let _ = show::at(bytes, place);
    }
    let asked = Asked { names: None, given: bytes.to_vec(), scene: bytes.to_vec(), added: [0, 0] };
    let answer = answer::ask(bytes);
    let taken = library::cells(bytes).is_ok();
    assert_eq!(explain::words(&asked, &answer).contains("refused: "), !taken);
    assert!(draw::picture(&asked, &answer).ends_with("</svg>\n"));
}

#[test]
fn any_bytes() {
    for text in TEXTS {
        let bytes = scene(text);
        (0..=bytes.len()).for_each(|length| all_views(&bytes[..length]));
        for at in 0..bytes.len() {
            for value in [0, 1, 69, 76, 80, 82, 84, 127, 128, 255] {
                let mut changed = bytes.clone();
                changed[at] = value;
                all_views(&changed);
            }
        }
    }
}

/// The objects stand in the bytes as in the text, whatever their types.
#[test]
fn in_the_order_of_the_text() {
    for text in TEXTS {
        let lines: Vec<&str> = text.lines().collect();
        let [given, turned] = [[0, 1], [1, 0]].map(|order| scene(&order.map(|i| lines[i]).join("\n")));
        assert!((1..given.len()).any(|second| [&given[second..], &given[..second]].concat() == turned));
        assert_eq!(scene(&show::text(&turned).unwrap()), turned);
    }
}

#[test]
fn rings_come_back() {
    let island = "MULTIPOLYGON (((0 0, 9 0, 9 9, 0 9, 0 0), (2 2, 2 7, 7 7, 7 2, 2 2)), ((3 3, 6 3, 6 6, 3 6, 3 3)))";
    let touching = "MULTIPOLYGON (((0 0, 4 0, 8 0, 8 8, 0 8, 0 0), (4 0, 2 2, 4 4, 4 0)), ((8 8, 9 8, 9 9, 8 8)))";
    let text = format!("{island}\n{touching}\n");
    assert_eq!(show::text(&scene(&text)).unwrap(), text);
}
