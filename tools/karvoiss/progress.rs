//! A bar on standard error while a register is written, where that is a terminal: how many of its pairs are done. It shows only in runs that take a while.

use crate::grid::thousands;
use std::io::{IsTerminal, Write};
use std::time::{Duration, Instant};

pub struct Progress {
    all: u64,
    done: u64,
    last: Instant,
    shown: bool,
    terminal: bool,
}

const BETWEEN: Duration = Duration::from_millis(100);
const WIDTH: u64 = 30;

impl Progress {
    pub fn new(all: u64) -> Progress {
        Progress { all, done: 0, last: Instant::now(), shown: false, terminal: std::io::stderr().is_terminal() }
    }

    /// Takes the bar away before rows are written, which may go to the same terminal.
    pub fn before_rows(&mut self) {
        if self.shown {
            eprint!("\r\x1b[K");
            self.shown = false;
        }
    }

    pub fn add(&mut self, pairs: u64) {
        self.done += pairs;
        if self.terminal && self.last.elapsed() >= BETWEEN && self.done < self.all {
            eprint!("\r{}\x1b[K", bar(self.done, self.all));
            // a bar that cannot be shown is no reason to stop
            let _ = std::io::stderr().flush();
            self.shown = true;
            self.last = Instant::now();
        }
    }
}

fn bar(done: u64, all: u64) -> String {
    let part = |of: u64| (done * of).checked_div(all).unwrap_or(of);
    let (full, percent) = (part(WIDTH) as usize, part(100));
    format!("{percent:3} % [{}{}] {} of {} pairs", "#".repeat(full), "-".repeat(WIDTH as usize - full), thousands(done), thousands(all))
}

#[cfg(test)]
mod tests {
    #[test]
    fn bars() {
        assert_eq!(super::bar(0, 4950), "  0 % [------------------------------] 0 of 4,950 pairs");
        assert_eq!(super::bar(2475, 4950), " 50 % [###############---------------] 2,475 of 4,950 pairs");
        assert_eq!(super::bar(0, 0), "100 % [##############################] 0 of 0 pairs");
    }
}
