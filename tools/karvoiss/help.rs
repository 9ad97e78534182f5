//! What the tool says of itself.

pub const OVERVIEW: &str = include_str!("help/overview.txt");

const TEXTS: [(&str, &str); 9] = [
    ("relate", include_str!("help/relate.txt")),
    ("is", include_str!("help/is.txt")),
    ("register", include_str!("help/register.txt")),
    ("draw", include_str!("help/draw.txt")),
    ("explain", include_str!("help/explain.txt")),
    ("make", include_str!("help/make.txt")),
    ("show", include_str!("help/show.txt")),
    ("wkb", include_str!("help/wkb.txt")),
    ("input", include_str!("help/input.txt")),
];

/// What is said of a command.
pub fn of(command: &str) -> Option<&'static str> {
    TEXTS.iter().find(|(name, _)| *name == command).map(|(_, text)| *text)
}

/// The library's version, as a C build finds it.
pub fn version() -> &'static str {
    let file = include_str!("../../include/karvoiss.pc.in");
    file.lines().find_map(|line| line.strip_prefix("Version: ")).unwrap_or("")
}

#[cfg(test)]
mod tests {
    use super::*;
    use crate::bytes::LIMIT;
    use crate::options::{COMMANDS, INPUT};
    use crate::predicate;

    const MANUAL: &str = include_str!("../../docs/karvoiss.1");
    const COMPLETION: &str = include_str!("completion.bash");

    #[test]
    fn every_command_and_option_is_said() {
        for (command, own) in COMMANDS {
            let text = of(command).unwrap();
            assert!(
                OVERVIEW.contains(&format!("karvoiss {command} ")) && MANUAL.contains(&format!(".SS {command}\n")) && COMPLETION.contains(command),
                "{command}"
            );
            for option in own {
                assert!(text.contains(option) && MANUAL.contains(&option.replace('-', "\\-")) && COMPLETION.contains(option), "{command} {option}");
            }
        }
        for option in INPUT {
            assert!(of("input").unwrap().contains(option) && MANUAL.contains(&option.replace('-', "\\-")) && COMPLETION.contains(option), "{option}");
        }
    }

    #[test]
    fn names_and_numbers() {
        for name in predicate::NAMES {
            assert!(of("is").unwrap().contains(name) && MANUAL.contains(name) && COMPLETION.contains(name), "{name}");
        }
        let range = format!("-{LIMIT} to {LIMIT}");
        assert!(OVERVIEW.contains(&range) && of("input").unwrap().contains(&range));
        assert!(version().split('.').count() == 3);
    }
}
