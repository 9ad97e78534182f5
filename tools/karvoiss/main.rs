//! The command line of the tool: commands, output, exit status. 0 is answered or yes, 1 no, 2 refused or wrong.

use karvoiss::answer::{self, Answer};
use karvoiss::input::{self, Held, Named, Reading};
use karvoiss::listing::NAMES;
use karvoiss::options::{COMMANDS, Options};
use karvoiss::progress::Progress;
use karvoiss::refusals::{self, Refused};
use karvoiss::register::{Register, Tally};
use karvoiss::relate::{self, Question};
use karvoiss::rows::Form;
use karvoiss::two::{self, Asked, Failure};
use karvoiss::{draw, explain, help, json, library, predicate, show, wkb};
use std::collections::{HashMap, HashSet};
use std::io::{BufWriter, ErrorKind, IsTerminal, Write};
use std::process::ExitCode;

/// What a command comes to, when it comes to an end.
enum End {
    Answered,
    No,
    Refused,
}

fn main() -> ExitCode {
    let words: Result<Vec<String>, _> = std::env::args_os().skip(1).map(std::ffi::OsString::into_string).collect();
    let Ok(words) = words else {
        eprintln!("karvoiss: a word of the command line is no UTF-8");
        return ExitCode::from(2);
    };
    let Some(command) = words.first() else {
        eprint!("{}", help::OVERVIEW);
        return ExitCode::from(2);
    };
    if let Some(end) = about(command, &words[1..]) {
        return end;
    }
    match run(command, &words[1..]) {
        Ok(End::Answered) => ExitCode::SUCCESS,
        Ok(End::No) => ExitCode::from(1),
        Ok(End::Refused) => ExitCode::from(2),
        Err(failure) => {
            match failure {
                Failure::Wrong(message) => eprintln!("karvoiss {command}: {message}"),
                Failure::Refused(no) => eprintln!("karvoiss {command}: refused, {}: {}", no.number, no.says),
            }
            ExitCode::from(2)
        }
    }
}

/// Help and version, if they are asked for.
fn about(command: &str, rest: &[String]) -> Option<ExitCode> {
    let asks = |word: &str| ["help", "-h", "--help"].contains(&word);
    if ["version", "-V", "--version"].contains(&command) {
        return Some(printed(&format!("karvoiss {}\n", help::version())));
    }
    let before = rest.iter().take_while(|word| *word != "--");
    let topic = match asks(command) {
        true => rest.first().map(String::as_str),
        false if before.clone().any(|word| asks(word) && word != "help") => Some(command),
        false => return None,
    };
    let Some(topic) = topic else {
        return Some(printed(help::OVERVIEW));
    };
    Some(match help::of(topic) {
        Some(text) => printed(text),
        None => {
            eprintln!("karvoiss: there is no command \"{topic}\": {}", commands());
            ExitCode::from(2)
        }
    })
}

fn commands() -> String {
    COMMANDS.iter().map(|(name, _)| *name).chain(["help"]).collect::<Vec<_>>().join(", ")
}

fn printed(text: &str) -> ExitCode {
    match std::io::stdout().write_all(text.as_bytes()) {
        Err(error) if error.kind() != ErrorKind::BrokenPipe => ExitCode::from(2),
        _ => ExitCode::SUCCESS,
    }
}

fn run(command: &str, words: &[String]) -> Result<End, Failure> {
    if !COMMANDS.iter().any(|(name, _)| *name == command) {
        return Err(Failure::Wrong(format!("no such command; there are {}", commands())));
    }
    let mut options = Options::read(command, words).map_err(|why| format!("{why}; see `karvoiss help {command}`"))?;
    let mut reading = options.reading();
    match command {
        "register" => register(&options, &mut reading),
        "is" => is(&mut options, &mut reading),
        "relate" => related(&options, &mut reading),
        "draw" | "explain" => asked_about(command, &options, &mut reading),
        _ => raw(command, &options, &mut reading),
    }
}

/// The scene of a command's shapes; and why it is none, if they cannot be split.
fn asked(options: &Options, reading: &mut Reading) -> Result<(Asked, Option<Refused>), Failure> {
    let two = two::read(&options.files, reading);
    report(reading);
    Ok(two?.asked(reading))
}

/// The same where nothing can be said of shapes that cannot be split.
fn sound(options: &Options, reading: &mut Reading) -> Result<Asked, Failure> {
    match asked(options, reading)? {
        (asked, None) => Ok(asked),
        (_, Some(no)) => Err(Failure::Refused(no)),
    }
}

/// What rounding did.
fn report(reading: &Reading) {
    if let Some(report) = reading.grid.report() {
        eprintln!("karvoiss: {report}");
    }
}

fn related(options: &Options, reading: &mut Reading) -> Result<End, Failure> {
    let (text, end) = match sound(options, reading) {
        Ok(asked) => match answer::ask(&asked.scene) {
            Answer::Taken(taken) if options.json => (relate::json(&asked, &taken, &reading.grid), End::Answered),
            Answer::Taken(taken) => (relate::words(&asked, &taken, &reading.grid), End::Answered),
            Answer::Refused { number, .. } if options.json => (refused_json(number, refusals::of(number).says), End::Refused),
            answer => (explain::words(&asked, &answer), End::Refused),
        },
        Err(Failure::Refused(no)) if options.json => (refused_json(no.number, &no.says), End::Refused),
        Err(failure) => return Err(failure),
    };
    output(options, text.as_bytes())?;
    Ok(end)
}

fn refused_json(number: u32, says: &str) -> String {
    format!("{{\"refused\": {number}, \"says\": {}}}\n", json::quoted(says))
}

fn is(options: &mut Options, reading: &mut Reading) -> Result<End, Failure> {
    let question = match options.pattern.take() {
        Some(pattern) => Question::Pattern(pattern),
        None if options.files.is_empty() => return Err(Failure::Wrong(format!("say which predicate: {}", predicate::NAMES.join(", ")))),
        None => {
            let word = options.files.remove(0);
            Question::Predicate(predicate::named(&word).ok_or(format!("\"{word}\" is none of {}", predicate::NAMES.join(", ")))?)
        }
    };
    let asked = sound(options, reading)?;
    if let Answer::Refused { number, place } = answer::ask(&asked.scene) {
        return Err(Failure::Refused(Refused { number, at: Some(place), says: refusals::of(number).says.to_string() }));
    }
    let (holds, words) = relate::is(&asked, &question)?;
    if !options.quiet {
        output(options, format!("{words}\n").as_bytes())?;
    }
    Ok(if holds { End::Answered } else { End::No })
}

/// A picture, or all in words; of what is refused too.
fn asked_about(command: &str, options: &Options, reading: &mut Reading) -> Result<End, Failure> {
    let (asked, refused) = asked(options, reading)?;
    let answer = match &refused {
        Some(no) => Answer::Refused { number: no.number, place: no.at.unwrap_or(0) },
        None => answer::ask(&asked.scene),
    };
    let text = if command == "draw" { draw::picture(&asked, &answer) } else { explain::words(&asked, &answer) };
    output(options, text.as_bytes())?;
    match (refused, answer) {
        (Some(no), _) => Err(Failure::Refused(no)),
        (None, Answer::Taken(_)) => Ok(End::Answered),
        _ => Ok(End::Refused),
    }
}

/// The commands on the bytes as they are.
fn raw(command: &str, options: &Options, reading: &mut Reading) -> Result<End, Failure> {
    let two = two::read(&options.files, reading);
    report(reading);
    let bytes = two?.raw();
    let result = match (command, options.at) {
        ("show", _) if options.text => show::text(&bytes)?.into_bytes(),
        ("show", Some(at)) => show::at(&bytes, at)?.into_bytes(),
        ("show", None) => show::all(&bytes).into_bytes(),
        ("wkb", _) => {
            let wkb = wkb::written(&bytes, options.of).map_err(|why| format!("{}{why}", NAMES[options.of]))?;
            if options.hex { wkb::spelt(&wkb).into_bytes() } else { not_for_reading(options, wkb)? }
        }
        _ => not_for_reading(options, if options.split { split(&bytes, reading)? } else { bytes })?,
    };
    output(options, &result)?;
    Ok(End::Answered)
}

fn split(scene: &[u8], reading: &Reading) -> Result<Vec<u8>, Failure> {
    let split = library::split(scene).map_err(|no| Failure::Refused(karvoiss::pair::refused(no, scene, &reading.grid)))?;
    Ok(split.scene)
}

fn not_for_reading(options: &Options, bytes: Vec<u8>) -> Result<Vec<u8>, Failure> {
    if options.out.is_none() && std::io::stdout().is_terminal() {
        return Err(Failure::Wrong("these bytes are not for reading: name a file with -o, or send them on".to_string()));
    }
    Ok(bytes)
}

fn output(options: &Options, bytes: &[u8]) -> Result<(), Failure> {
    let written = match &options.out {
        Some(file) => std::fs::write(file, bytes),
        None => std::io::stdout().write_all(bytes),
    };
    broken_pipe_is_fine(written, options)
}

fn broken_pipe_is_fine(written: std::io::Result<()>, options: &Options) -> Result<(), Failure> {
    let to = options.out.as_deref().unwrap_or("standard output");
    match written {
        Err(error) if error.kind() != ErrorKind::BrokenPipe => Err(Failure::Wrong(format!("cannot write to {to}: {}", input::plain(&error)))),
        _ => Ok(()),
    }
}

fn register(options: &Options, reading: &mut Reading) -> Result<End, Failure> {
    let form = match (options.csv, options.json) {
        (true, true) => return Err(Failure::Wrong("--csv and --json are two forms: choose one".to_string())),
        (true, _) => Form::Csv,
        (_, true) => Form::Json,
        _ => Form::Table,
    };
    let shapes = shapes(&options.files, reading)?;
    report(reading);
    let register = Register::new(&shapes, &reading.grid, form, options.near, options.areas);
    let threads = options.threads.or(std::thread::available_parallelism().ok().map(usize::from)).unwrap_or(1);
    let to: Box<dyn Write> = match &options.out {
        Some(file) => Box::new(std::fs::File::create(file).map_err(|error| format!("cannot write to {file}: {}", input::plain(&error)))?),
        None => Box::new(std::io::stdout()),
    };
    let tally = written(&register, threads, BufWriter::new(to));
    let tally = match tally {
        Ok(tally) => tally,
        Err(error) => return broken_pipe_is_fine(Err(error), options).map(|()| End::Answered),
    };
    eprint!("{}", tally.words());
    Ok(if tally.has_refusals() { End::Refused } else { End::Answered })
}

fn written(register: &Register, threads: usize, mut to: impl Write) -> std::io::Result<Tally> {
    let mut progress = Progress::new(register.pairs());
    to.write_all(register.heading().as_bytes())?;
    let tally = register.run(threads, |rows, pairs| {
        progress.before_rows();
        to.write_all(rows.as_bytes())?;
        progress.add(pairs);
        Ok::<(), std::io::Error>(())
    })?;
    progress.before_rows();
    to.flush()?;
    Ok(tally)
}

/// The shapes of all files in their order.
fn shapes(files: &[String], reading: &mut Reading) -> Result<Vec<Named>, Failure> {
    if files.is_empty() {
        return Err(Failure::Wrong("name the files whose shapes are to be laid side by side, or - for standard input".to_string()));
    }
    let mut shapes = Vec::new();
    for file in files {
        match input::held(file, reading)? {
            Held::Scene(scene) => shapes.extend(input::objects_of(&scene)),
            Held::Shapes(of_file) => shapes.extend(of_file),
        }
    }
    tell_apart(&mut shapes);
    Ok(shapes)
}

/// Names that occur before get a number.
fn tell_apart(shapes: &mut [Named]) {
    let mut numbers: HashMap<String, usize> = HashMap::new();
    let mut taken: HashSet<String> = HashSet::new();
    for shape in shapes {
        let name = shape.name.clone();
        while !taken.insert(shape.name.clone()) {
            let number = numbers.entry(name.clone()).or_insert(1);
            *number += 1;
            shape.name = format!("{name} ({number})");
        }
    }
}
