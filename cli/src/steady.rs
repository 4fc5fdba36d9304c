//! Whether a file stays as it is while it is read. One that is written to meanwhile would be taken in a state that it never had: the front of before and the
//! end of after. What is compared is the device and the number of the file, its length, and the times of its last changes, before and after.

use std::fs::Metadata;
use std::io;
use std::os::unix::fs::MetadataExt;
use std::thread;
use std::time::{Duration, SystemTime, UNIX_EPOCH};

/// How coarse the clock of a file system may be: two changes within this time may bear the same time.
pub const TICK: Duration = Duration::from_millis(20);

/// How often something that was changed just now is looked at, a tick apart.
pub const LOOKS: usize = 5;

/// What tells one state of a file from another. Two states that are the same, the first of which was not fresh, have no change between them.
#[derive(Clone, Copy, Debug, PartialEq, Eq)]
pub struct State {
    device: u64,
    number: u64,
    /// The file's length in bytes.
    pub length: u64,
    /// The times of the last change to its bytes, and to anything of it: seconds and nanoseconds.
    modified: (i64, i64),
    changed: (i64, i64),
}

impl State {
    pub fn of(found: &Metadata) -> State {
        State {
            device: found.dev(),
            number: found.ino(),
            length: found.len(),
            modified: (found.mtime(), found.mtime_nsec()),
            changed: (found.ctime(), found.ctime_nsec()),
        }
    }

    /// Whether the last change is so short ago that a further one may bear the same time.
    pub fn is_fresh(&self) -> bool {
        self.is_fresh_at(SystemTime::now())
    }

    fn is_fresh_at(&self, now: SystemTime) -> bool {
        let now = now.duration_since(UNIX_EPOCH).unwrap_or_default();
        let changed = i128::from(self.changed.0) * 1_000_000_000 + i128::from(self.changed.1);
        // A time that lies ahead is that of another clock, and says nothing of now.
        (now.as_nanos() as i128 - changed).unsigned_abs() < TICK.as_nanos()
    }
}

/// A state that is not fresh: of the first look, or of one after a tick. None where it is changed again and again; fails where a look does.
pub fn settled(look: impl Fn() -> io::Result<State>) -> io::Result<Option<State>> {
    for _ in 0..LOOKS {
        let state = look()?;
        if !state.is_fresh() {
            return Ok(Some(state));
        }
        thread::sleep(TICK);
    }
    Ok(None)
}

#[cfg(test)]
mod tests {
    use super::{settled, State, TICK};
    use std::cell::Cell;
    use std::time::{Duration, SystemTime, UNIX_EPOCH};

    /// A file that was changed so many nanoseconds after a second.
    fn changed_at(seconds: i64, nanoseconds: i64) -> State {
        State {
            device: 1,
            number: 2,
            length: 3,
            modified: (seconds, nanoseconds),
            changed: (seconds, nanoseconds),
        }
    }

    fn now() -> (i64, i64) {
        let now = SystemTime::now().duration_since(UNIX_EPOCH).unwrap();
        (now.as_secs() as i64, now.subsec_nanos() as i64)
    }

    #[test]
    fn a_change_of_just_now_is_fresh() {
        let now = UNIX_EPOCH + Duration::from_secs(1000);
        for (seconds, nanoseconds, fresh) in [
            (1000, 0, true),
            (999, 981_000_000, true),
            (1000, 19_000_000, true),
            (999, 980_000_000, false),
            (1000, 20_000_000, false),
            (0, 0, false),
            (-1, 0, false),
            (i64::MAX, 0, false),
        ] {
            let state = changed_at(seconds, nanoseconds);
            assert_eq!(state.is_fresh_at(now), fresh, "{seconds} {nanoseconds}");
        }
        assert_eq!(TICK, Duration::from_millis(20));
    }

    #[test]
    fn a_file_that_was_written_once_is_waited_for() {
        let (seconds, nanoseconds) = now();
        let state = changed_at(seconds, nanoseconds);
        assert_eq!(settled(|| Ok(state)).unwrap(), Some(state));
        let old = changed_at(1, 2);
        assert_eq!(settled(|| Ok(old)).unwrap(), Some(old));
    }

    #[test]
    fn a_file_that_is_written_again_and_again_is_not_settled() {
        let looks = Cell::new(0);
        let written = || {
            looks.set(looks.get() + 1);
            let (seconds, nanoseconds) = now();
            Ok(changed_at(seconds, nanoseconds))
        };
        assert_eq!(settled(written).unwrap(), None);
        assert_eq!(looks.get(), super::LOOKS);
    }
}
