//! The two shapes that a command asks about: a file for each, one file with both, or a scene's bytes. Shapes from files are split where they meet; a scene is taken as it is.

use crate::bytes;
use crate::input::{self, Held, Named, Reading};
use crate::pair::{self, Object};
use crate::refusals::Refused;
use std::io::IsTerminal;

pub enum Two {
    Scene(Vec<u8>),
    Shapes([String; 2], [Object; 2]),
}

/// A scene to ask about, and the objects as they were given.
pub struct Asked {
    pub names: Option<[String; 2]>,
    pub given: Vec<u8>,
    pub scene: Vec<u8>,
    pub added: [usize; 2],
}

/// What ends a command: a wrong command line or file, or shapes that are refused.
#[derive(Debug)]
pub enum Failure {
    Wrong(String),
    Refused(Refused),
}

impl From<String> for Failure {
    fn from(message: String) -> Failure {
        Failure::Wrong(message)
    }
}

pub fn read(files: &[String], reading: &mut Reading) -> Result<Two, Failure> {
    match files {
        [] if std::io::stdin().is_terminal() => Err(Failure::Wrong("name the files of two shapes, or one file with both".to_string())),
        [] => of_one("-", reading),
        [both] => of_one(both, reading),
        [f, g] if f == "-" && g == "-" => Err(Failure::Wrong("standard input can be read once only".to_string())),
        [f, g] => two(one_shape(f, reading)?, one_shape(g, reading)?),
        [_, _, third, ..] => Err(Failure::Wrong(format!("a third file, {third}: two shapes are asked about"))),
    }
}

fn of_one(file: &str, reading: &mut Reading) -> Result<Two, Failure> {
    let mut shapes = match input::held(file, reading)? {
        Held::Scene(bytes) => return Ok(Two::Scene(bytes)),
        Held::Shapes(shapes) => shapes,
    };
    match shapes.len() {
        1 => Err(Failure::Wrong(format!("{} holds one shape: name the other's file too", called(file)))),
        2 => {
            let second = shapes.remove(1);
            two(shapes.remove(0), second)
        }
        n => Err(Failure::Wrong(format!("{} holds {n} shapes: say which two, as {file}#NAME; {}", called(file), input::some_names(&shapes)))),
    }
}

fn called(file: &str) -> &str {
    if file == "-" { "standard input" } else { file }
}

fn one_shape(file: &str, reading: &mut Reading) -> Result<Named, Failure> {
    let mut shapes = match input::held(file, reading)? {
        Held::Scene(_) => return Err(Failure::Wrong(format!("{} is a scene, which has both shapes: name it alone", called(file)))),
        Held::Shapes(shapes) => shapes,
    };
    match shapes.len() {
        1 => Ok(shapes.remove(0)),
        n => Err(Failure::Wrong(format!("{} holds {n} shapes: say which, as {file}#NAME; {}", called(file), input::some_names(&shapes)))),
    }
}

fn two(f: Named, g: Named) -> Result<Two, Failure> {
    Ok(Two::Shapes([f.name, g.name], [f.object.map_err(Failure::Refused)?, g.object.map_err(Failure::Refused)?]))
}

impl Two {
    /// As the library takes it: of shapes, split where they must be. Where they cannot be split they come as they are, with the reason.
    pub fn asked(self, reading: &Reading) -> (Asked, Option<Refused>) {
        let (names, [f, g]) = match self {
            Two::Scene(scene) => return (Asked { names: None, given: scene.clone(), scene, added: [0, 0] }, None),
            Two::Shapes(names, objects) => (Some(names), objects),
        };
        let pair = pair::of(&f, &g, &reading.grid);
        let given = [f.bytes, g.bytes].concat();
        match pair {
            Ok(pair) => (Asked { names, given, scene: pair.scene, added: pair.added }, None),
            Err(no) => (Asked { names, scene: given.clone(), given, added: [0, 0] }, Some(no)),
        }
    }

    /// The bytes as they are, with crossings unsplit.
    pub fn raw(self) -> Vec<u8> {
        match self {
            Two::Scene(scene) => scene,
            Two::Shapes(_, [f, g]) => [f.bytes, g.bytes].concat(),
        }
    }
}

impl Asked {
    /// "F: north, region, 4 segments", where there is a name.
    pub fn label(&self, object: usize, summary: &str) -> String {
        match &self.names {
            Some(names) => format!("{}, {summary}", names[object]),
            None => summary.to_string(),
        }
    }

    pub fn second(&self) -> usize {
        bytes::second(&self.scene)
    }
}
