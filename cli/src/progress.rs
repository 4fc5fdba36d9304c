//! What a long command is doing, on a terminal only.

use crate::console::complain;
use crate::system::stderr_is_a_terminal;

pub struct Progress {
    shown: bool,
}

impl Progress {
    /// Shown where standard error is a terminal.
    pub fn start() -> Progress {
        Progress {
            shown: stderr_is_a_terminal(),
        }
    }

    pub fn say(&self, what: &str) {
        if self.shown {
            complain(&format!("\r\x1b[K{what}"));
        }
    }
}

impl Drop for Progress {
    fn drop(&mut self) {
        self.say("");
    }
}
