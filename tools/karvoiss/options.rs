//! The command line: words after the command, as options and files.

use crate::decimal::Decimal;
use crate::grid::Grid;
use crate::input::Reading;

#[derive(Default)]
pub struct Options {
    pub files: Vec<String>,
    pub out: Option<String>,
    pub json: bool,
    pub csv: bool,
    pub areas: bool,
    pub near: bool,
    pub quiet: bool,
    pub split: bool,
    pub text: bool,
    pub hex: bool,
    pub at: Option<usize>,
    pub threads: Option<usize>,
    pub of: usize,
    pub pattern: Option<String>,
    scale: Option<Decimal>,
    origin: Option<[Decimal; 2]>,
    round: bool,
    column: Option<String>,
    name: Option<String>,
}

/// The commands, each with the options that it takes beside those of the input.
pub const COMMANDS: [(&str, &[&str]); 8] = [
    ("relate", &["--json", "--out"]),
    ("is", &["--pattern", "--quiet"]),
    ("register", &["--json", "--csv", "--areas", "--near", "--threads", "--out"]),
    ("draw", &["--out"]),
    ("explain", &["--out"]),
    ("make", &["--split", "--out"]),
    ("show", &["--at", "--text", "--out"]),
    ("wkb", &["--of", "--hex", "--out"]),
];

/// How files are read: every command takes these.
pub const INPUT: [&str; 5] = ["--scale", "--origin", "--round", "--column", "--name"];

const SHORT: [(&str, &str); 2] = [("-o", "--out"), ("-q", "--quiet")];

impl Options {
    /// What follows the command, or what is wrong with it. Behind `--` all words are files.
    pub fn read(command: &str, words: &[String]) -> Result<Options, String> {
        let own = COMMANDS.iter().find(|(name, _)| *name == command).map(|(_, own)| *own).ok_or("no such command")?;
        let mut options = Options::default();
        let mut rest = words.iter();
        while let Some(word) = rest.next() {
            if word == "--" {
                options.files.extend(rest.by_ref().cloned());
            } else if word.starts_with('-') && word != "-" {
                let (name, joined) = word.split_once('=').map_or((word.as_str(), None), |(name, value)| (name, Some(value.to_string())));
                let name = SHORT.iter().find(|(short, _)| *short == name).map_or(name, |(_, long)| long);
                if !own.contains(&name) && !INPUT.contains(&name) {
                    return Err(format!("{name} is no option here"));
                }
                options.set(name, joined, &mut rest)?;
            } else {
                options.files.push(word.clone());
            }
        }
        Ok(options)
    }

    fn set(&mut self, name: &str, joined: Option<String>, rest: &mut std::slice::Iter<String>) -> Result<(), String> {
        let flag = match name {
            "--json" => Some(&mut self.json),
            "--csv" => Some(&mut self.csv),
            "--areas" => Some(&mut self.areas),
            "--near" => Some(&mut self.near),
            "--quiet" => Some(&mut self.quiet),
            "--split" => Some(&mut self.split),
            "--text" => Some(&mut self.text),
            "--hex" => Some(&mut self.hex),
            "--round" => Some(&mut self.round),
            _ => None,
        };
        if let Some(flag) = flag {
            *flag = true;
            return if joined.is_some() { Err(format!("{name} takes no value")) } else { Ok(()) };
        }
        let value = joined.or_else(|| rest.next().cloned()).ok_or(format!("{name} needs a value"))?;
        self.set_value(name, value)
    }

    fn set_value(&mut self, name: &str, value: String) -> Result<(), String> {
        match name {
            "--out" => self.out = Some(value),
            "--pattern" => self.pattern = Some(value),
            "--column" => self.column = Some(value),
            "--name" => self.name = Some(value),
            "--at" => self.at = Some(value.parse().map_err(|_| format!("--at {value} is no byte offset"))?),
            "--threads" => {
                self.threads =
                    Some(value.parse().ok().filter(|n| (1..=256).contains(n)).ok_or(format!("--threads {value} is no number from 1 to 256"))?)
            }
            "--of" => {
                self.of =
                    ["F", "G"].iter().position(|object| object.eq_ignore_ascii_case(&value)).ok_or(format!("--of {value} is neither F nor G"))?
            }
            "--scale" => self.scale = Some(scale(&value)?),
            _ => self.origin = Some(origin(&value)?),
        }
        Ok(())
    }

    pub fn reading(&self) -> Reading {
        let grid = Grid::new(self.scale.unwrap_or(Decimal::ONE), self.origin.unwrap_or([Decimal::ZERO; 2]), self.round);
        Reading { grid, column: self.column.clone(), name: self.name.clone() }
    }
}

fn scale(word: &str) -> Result<Decimal, String> {
    let wrong = format!("--scale {word} is no number above zero");
    Decimal::read(word).ok().filter(Decimal::is_above_zero).ok_or(wrong)
}

fn origin(word: &str) -> Result<[Decimal; 2], String> {
    let both = word.split_once(',').and_then(|(x, y)| Some([Decimal::read(x.trim()).ok()?, Decimal::read(y.trim()).ok()?]));
    both.ok_or(format!("--origin {word} is not two numbers with a comma between them, as -81.5,36"))
}

#[cfg(test)]
mod tests {
    use super::*;

    fn read(command: &str, line: &str) -> Result<Options, String> {
        Options::read(command, &line.split(' ').map(str::to_string).collect::<Vec<_>>())
    }

    #[test]
    fn words() {
        let options = read("register", "a.wkt -o out --json b.csv --scale=100 --origin -81.5,36 -- --csv").unwrap();
        assert_eq!(
            (options.files, options.out.as_deref(), options.json, options.csv),
            (["a.wkt", "b.csv", "--csv"].map(str::to_string).to_vec(), Some("out"), true, false)
        );
        assert_eq!(options.origin, Some([Decimal::read("-81.5").unwrap(), Decimal::read("36").unwrap()]));
    }

    #[test]
    fn wrong_words() {
        let pairs = [
            ("bake", "a", "no such command"),
            ("relate", "--near a b", "--near is no option here"),
            ("relate", "--scale", "--scale needs a value"),
            ("relate", "--scale -2", "--scale -2 is no number above zero"),
            ("relate", "--origin 3", "--origin 3 is not two numbers with a comma between them, as -81.5,36"),
            ("relate", "--json=yes", "--json takes no value"),
            ("show", "--at x", "--at x is no byte offset"),
            ("wkb", "--of H", "--of H is neither F nor G"),
            ("register", "--threads 0", "--threads 0 is no number from 1 to 256"),
        ];
        for (command, line, message) in pairs {
            assert_eq!(read(command, line).err().as_deref(), Some(message));
        }
    }
}
