//! The rows of a register: as a table, as CSV or as JSON lines. A row is put together from pieces that are ready, since there are many: names are quoted or padded once for all rows.

use crate::refusals::Refused;
use crate::{csv, json};

#[derive(Clone, Copy, PartialEq, Debug)]
pub enum Form {
    Table,
    Csv,
    Json,
}

pub struct Rows {
    form: Form,
    /// Whether areas are wanted.
    areas: bool,
    names: Vec<String>,
    /// What stands for a second name where there is none.
    no_name: String,
    width: usize,
}

/// The widest name that columns are lined up for.
const WIDEST: usize = 30;

impl Rows {
    pub fn new<'a>(form: Form, areas: bool, names: impl Iterator<Item = &'a str> + Clone) -> Rows {
        let width = names.clone().map(|name| name.chars().count()).max().unwrap_or(0).min(WIDEST);
        let written = |name: &str| match form {
            Form::Table => format!("{:width$}", name.replace(char::is_control, " ")),
            Form::Csv => csv::quoted(name).into_owned(),
            Form::Json => json::quoted(name),
        };
        Rows { form, areas, names: names.map(written).collect(), no_name: written(""), width }
    }

    pub fn heading(&self) -> String {
        match self.form {
            Form::Json => String::new(),
            Form::Csv => format!("f,g,matrix,relation{},refused,says\n", if self.areas { ",both,f_only,g_only" } else { "" }),
            Form::Table => {
                let areas = if self.areas { format!("{:>16}{:>16}{:>16}", "both", "F only", "G only") } else { String::new() };
                format!("{:w$}  {:w$}  {:9}  {:10}{areas}", "F", "G", "matrix", "relation", w = self.width).trim_end().to_string() + "\n"
            }
        }
    }

    /// The row of a pair that is answered; `areas` where it has some.
    pub fn answer(&self, rows: &mut String, at: [usize; 2], matrix: &str, relation: &str, areas: Option<[String; 3]>) {
        let [f, g] = at.map(|at| self.names[at].as_str());
        let pieces = match self.form {
            Form::Table => ["", f, "  ", g, "  ", matrix, "  ", relation],
            Form::Csv => ["", f, ",", g, ",", matrix, ",", relation],
            Form::Json => ["{\"f\": ", f, ", \"g\": ", g, ", \"matrix\": \"", matrix, "\", \"relation\": \"", relation],
        };
        pieces.iter().for_each(|piece| rows.push_str(piece));
        match (self.form, areas) {
            (Form::Table, Some([both, f_only, g_only])) => {
                let indent = "coveredBy ".len() - relation.len();
                rows.push_str(&format!("{:indent$}{both:>16}{f_only:>16}{g_only:>16}", ""));
            }
            (Form::Csv, Some(areas)) => rows.push_str(&format!(",{},,", areas.join(","))),
            (Form::Csv, None) => rows.push_str(if self.areas { ",,,,," } else { ",," }),
            (Form::Json, Some([both, f, g])) => rows.push_str(&format!("\", \"areas\": {{\"both\": {both}, \"f_only\": {f}, \"g_only\": {g}}}}}")),
            (Form::Json, None) => rows.push_str("\"}"),
            (Form::Table, None) => {}
        }
        rows.push('\n');
    }

    /// The row of a shape or of a pair that is refused.
    pub fn refusal(&self, rows: &mut String, f: usize, g: Option<usize>, no: &Refused) {
        let (f, g) = (&self.names[f], g.map(|g| &self.names[g]));
        let Refused { number, says, .. } = no;
        rows.push_str(&match self.form {
            Form::Table => format!("{f}  {}  refused, {number}: {says}\n", g.unwrap_or(&self.no_name)),
            Form::Csv => format!("{f},{},,{},{number},{}\n", g.unwrap_or(&self.no_name), if self.areas { ",,," } else { "" }, csv::quoted(says)),
            Form::Json => {
                let g = g.map(|g| format!("\"g\": {g}, ")).unwrap_or_default();
                format!("{{\"f\": {f}, {g}\"refused\": {number}, \"says\": {}}}\n", json::quoted(says))
            }
        });
    }
}
