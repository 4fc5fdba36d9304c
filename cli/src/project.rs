//! The files of a project, and their parts committed or digested on all cores, one part to a core at a time.

use crate::digest::Digester;
use crate::folder::Named;
use crate::manifest::{counted, part_count, part_place, Entry, Form, Manifest};
use crate::manifest_files;
use crate::outcome::{Failure, Outcome};
use crate::progress::Progress;
use crate::reading::{listed_stretch, unreadable, Stretch, Unread};
use crate::steady::State;
use crate::table::{room_to_commit_many, table_in, table_of};
use dequmlo::{Buffers, Deposit, Key, Refusal, Root, Threads, Widths, Word};
use std::ffi::OsStr;
use std::mem;
use std::os::unix::ffi::OsStrExt;
use std::path::{Path, PathBuf};
use std::sync::atomic::{AtomicU64, AtomicUsize, Ordering};
use std::sync::Mutex;
use std::thread;

/// The path of a project's file on the disk.
pub fn file_path(folder: &Path, below: &[u8]) -> PathBuf {
    if below.is_empty() {
        return folder.into();
    }
    folder.join(OsStr::from_bytes(below))
}

/// Where a project lies.
#[derive(Clone, Copy)]
pub enum Place<'a> {
    /// A folder, with its files below it.
    Folder(&'a Path),
    /// The one file of the project, whatever its name.
    File(&'a Path),
}

impl Place<'_> {
    pub fn path(&self, below: &[u8]) -> PathBuf {
        match self {
            Place::Folder(folder) => file_path(folder, below),
            Place::File(file) => file.to_path_buf(),
        }
    }
}

/// The bytes of a part of a file, in place of what is there. The file must be in the state in which it was listed, before and after.
pub fn part_of_file(
    read: &mut Vec<u8>,
    path: &Path,
    state: State,
    index: usize,
) -> Result<(), Unread> {
    let (start, size) = part_place(state.length, index);
    let is_last = index + 1 == part_count(state.length);
    // One byte behind the last part shows that the file has more than the system says.
    let most = if is_last { size + 1 } else { size };
    let stretch = Stretch { start, size: most };
    match listed_stretch(read, path, state, stretch) {
        Ok(()) if read.len() == size => Ok(()),
        Ok(()) | Err(Unread::Missing) => Err(Unread::Changed),
        Err(e) => Err(e),
    }
}

/// Why the parts of a project were not committed.
pub enum Stop {
    Refused(Refusal),
    Failed(Failure),
}

impl Stop {
    pub fn outcome(self) -> Result<Outcome, Failure> {
        match self {
            Stop::Refused(refusal) => Ok(Outcome::refused(&refusal)),
            Stop::Failed(failure) => Err(failure),
        }
    }
}

/// The root of these bytes as a deposit of their own. They are at most as many as a deposit has.
pub fn root_of(
    bytes: &[u8],
    threads: Threads,
    key: Option<&Key>,
    domain: &[u8],
    widths: Widths,
    k: usize,
) -> Result<Root, Refusal> {
    let table = table_of(bytes).expect("no more bytes than a deposit has");
    Deposit::commit_on(threads, key, domain, widths, k, &table).map(|deposit| deposit.root())
}

/// The root of a project: that of its manifest, or of the list of the manifest's parts.
pub fn project_root(manifest: &Manifest, under: Under) -> Result<Root, Refusal> {
    let files = manifest_files::files(manifest, &Digester::of(under.key));
    root_of_files(&files, under)
}

/// The same of a manifest as files, of which the first is committed.
pub fn root_of_files(files: &[Named], under: Under) -> Result<Root, Refusal> {
    let Under {
        threads,
        key,
        domain,
        widths,
        k,
        ..
    } = under;
    root_of(&files[0].1, threads, key, domain, widths, k)
}

/// What a thread keeps from one part to the next, so that the system makes its pages once.
#[derive(Default)]
struct Kept {
    bytes: Vec<u8>,
    table: Vec<Word>,
    buffers: Buffers,
}

impl Kept {
    /// The root of the bytes that were read.
    fn root(&mut self, under: &Under) -> Result<Root, Refusal> {
        let Under {
            key,
            domain,
            widths,
            k,
            ..
        } = *under;
        table_in(&mut self.table, &self.bytes).expect("no more bytes than a deposit has");
        let buffers = mem::take(&mut self.buffers);
        let threads = Threads::of(1);
        let deposit = Deposit::commit_in(buffers, threads, key, domain, widths, k, &self.table)?;
        let root = deposit.root();
        self.buffers = deposit.into_buffers();
        Ok(root)
    }

    /// What is made of the bytes that were read.
    fn mark(&mut self, under: &Under, digester: &Digester) -> Result<Mark, Refusal> {
        Ok(Mark {
            digest: under
                .made
                .has_digests()
                .then(|| digester.digest(&self.bytes)),
            root: match under.made.has_roots() {
                true => Some(self.root(under)?),
                false => None,
            },
        })
    }
}

/// What is made of each part of a project.
#[derive(Clone, Copy, Debug, PartialEq, Eq)]
pub enum Made {
    Roots,
    Digests,
    Both,
}

impl Made {
    fn has_roots(self) -> bool {
        self != Made::Digests
    }

    fn has_digests(self) -> bool {
        self != Made::Roots
    }
}

/// By what the parts of a project are committed, what is made of them, and on how many threads.
#[derive(Clone, Copy)]
pub struct Under<'a> {
    pub threads: Threads,
    pub key: Option<&'a Key>,
    pub domain: &'a [u8],
    pub widths: Widths,
    pub k: usize,
    pub made: Made,
}

/// What is known of the bytes of a part: its root, its digest, or both.
#[derive(Clone, Copy, Debug, PartialEq, Eq)]
pub struct Mark {
    pub root: Option<Root>,
    pub digest: Option<Root>,
}

/// A file of a project as it is now: what is known of each part, or why the part could not be read.
#[derive(Clone, Debug, PartialEq, Eq)]
pub struct Committed {
    pub path: Vec<u8>,
    pub bytes: u64,
    pub parts: Vec<Result<Mark, String>>,
}

impl Committed {
    /// The file as a manifest of this form has it; none where a part could not be read, or not all that the form has was made.
    pub fn entry(&self, form: Form) -> Option<Entry> {
        let digests = match form {
            Form::First => Some(Vec::new()),
            Form::Second => self.marks(|mark| mark.digest),
        };
        Some(Entry {
            path: self.path.clone(),
            bytes: self.bytes,
            parts: self.marks(|mark| mark.root)?,
            digests: digests?,
        })
    }

    /// The roots of its parts, or the digests; none where not all were made.
    pub fn marks(&self, kind: fn(&Mark) -> Option<Root>) -> Option<Vec<Root>> {
        let mark = |part: &Result<Mark, String>| part.as_ref().ok().and_then(kind);
        self.parts.iter().map(mark).collect()
    }
}

/// The manifest of these files, and of these empty folders. Fails at the first file that cannot be read, or is changed meanwhile.
pub fn manifest_of(
    place: Place,
    files: &[(Vec<u8>, State)],
    folders: &[Vec<u8>],
    under: Under,
) -> Result<Manifest, Stop> {
    let unread = |path: &Path, e: Unread| Err(Stop::Failed(unreadable(path, e)));
    let made = Made::Both;
    let committed = committed(
        place,
        files,
        Under { made, ..under },
        &part_of_file,
        &unread,
    )?;
    let form = Form::Second;
    let entries = committed.iter().filter_map(|file| file.entry(form));
    Ok(Manifest {
        form,
        files: entries.collect(),
        folders: folders.to_vec(),
    })
}

/// These files of a project as they are now. A file that cannot be read, or is changed meanwhile, keeps nothing from the others.
pub fn committed_as_far_as_read(
    place: Place,
    files: &[(Vec<u8>, State)],
    under: Under,
) -> Result<Vec<Committed>, Stop> {
    committed(
        place,
        files,
        under,
        &part_of_file,
        &|_, e| Ok(e.to_string()),
    )
}

/// Reads a part of a file, in place of what is there: of the file at a path, in the state in which it was listed.
type ReadPart = dyn Fn(&mut Vec<u8>, &Path, State, usize) -> Result<(), Unread> + Sync;

/// What becomes of a part that was not read: the reason for the list, or the end of the work.
type OnUnread = dyn Fn(&Path, Unread) -> Result<String, Stop> + Sync;

/// The parts of these files committed or digested, a part to a thread at a time.
fn committed(
    place: Place,
    files: &[(Vec<u8>, State)],
    under: Under,
    read: &ReadPart,
    on_unread: &OnUnread,
) -> Result<Vec<Committed>, Stop> {
    let mut jobs: Vec<Job> = Vec::new();
    for (file, (_, state)) in files.iter().enumerate() {
        jobs.extend((0..part_count(state.length)).map(|part| (file, part)));
    }
    // The largest first, so that no core is left with one of them at the end, and that the buffers of a thread's first part serve for all others.
    let size = |(file, part): &Job| part_place(files[*file].1.length, *part).1;
    jobs.sort_by_key(|job| std::cmp::Reverse(size(job)));
    let largest = jobs.first().map_or(0, size);
    let wanted = under.threads.number().min(jobs.len()).max(1);
    let threads = match under.made {
        Made::Digests => wanted,
        _ => room_to_commit_many(under.widths, largest, under.k, wanted).map_err(Stop::Failed)?,
    };

    let digester = Digester::of(under.key);
    let bytes = files.iter().map(|(_, state)| state.length).sum();
    let work = Work::new(&jobs, bytes, under.made, threads);
    thread::scope(|scope| {
        for _ in 0..threads {
            scope.spawn(|| {
                let mut kept = Kept::default();
                work.take(|(file, part)| {
                    let (path, state) = &files[file];
                    let path = place.path(path);
                    if let Err(e) = read(&mut kept.bytes, &path, *state, part) {
                        return on_unread(&path, e).map(|why| (Err(why), 0));
                    }
                    let mark = kept.mark(&under, &digester).map_err(Stop::Refused)?;
                    Ok((Ok(mark), kept.bytes.len()))
                })
            });
        }
    });
    let mut parts = work.parts()?.into_iter();
    let file = |(path, state): &(Vec<u8>, State)| Committed {
        path: path.clone(),
        bytes: state.length,
        parts: parts.by_ref().take(part_count(state.length)).collect(),
    };
    Ok(files.iter().map(file).collect())
}

/// A part of a project: the number of its file, and its own in the file.
type Job = (usize, usize);

/// What came of a part, or why it could not be read.
type Done = Result<Mark, String>;

/// The parts that are to be committed or digested, and what came of those that are.
struct Work<'a> {
    jobs: &'a [Job],
    doing: String,
    next: AtomicUsize,
    bytes: u64,
    bytes_done: AtomicU64,
    progress: Progress,
    /// What came of each part after the part; or why the work ended.
    done: Mutex<Result<Vec<(Job, Done)>, Stop>>,
}

impl<'a> Work<'a> {
    fn new(jobs: &'a [Job], bytes: u64, made: Made, threads: usize) -> Work<'a> {
        let doing = match made {
            Made::Digests => "comparing digests",
            _ => "committing",
        };
        Work {
            jobs,
            doing: format!("{doing} on {}", counted(threads, "thread")),
            next: AtomicUsize::new(0),
            bytes,
            bytes_done: AtomicU64::new(0),
            progress: Progress::start(),
            done: Mutex::new(Ok(Vec::with_capacity(jobs.len()))),
        }
    }

    /// Does one part after another until there is none left, or until one was not done.
    fn take(&self, mut commit: impl FnMut(Job) -> Result<(Done, usize), Stop>) {
        while let Some(job) = self.jobs.get(self.next.fetch_add(1, Ordering::Relaxed)) {
            let committed = commit(*job);
            let mut done = self.done.lock().expect("no part ends with a fault");
            match (&mut *done, committed) {
                (Err(_), _) => return,
                (Ok(parts), Ok((part, size))) => {
                    parts.push((*job, part));
                    self.say(parts.len(), size as u64);
                }
                (Ok(_), Err(stop)) => *done = Err(stop),
            }
        }
    }

    fn say(&self, parts: usize, size: u64) {
        let bytes = self.bytes_done.fetch_add(size, Ordering::Relaxed) + size;
        let (all, mega) = (self.jobs.len(), 1_000_000);
        let (now, whole) = (bytes / mega, self.bytes / mega);
        let doing = &self.doing;
        self.progress.say(&format!(
            "{doing}: {parts} of {all} parts, {now} of {whole} MB .."
        ));
    }

    /// What came of all parts, file by file.
    fn parts(self) -> Result<Vec<Done>, Stop> {
        let mut parts = self.done.into_inner().expect("no part ends with a fault")?;
        parts.sort_by_key(|(job, _)| *job);
        Ok(parts.into_iter().map(|(_, part)| part).collect())
    }
}

#[cfg(test)]
mod tests {
    use super::{committed, part_of_file, Made, Place, Stop, Under};
    use crate::manifest::{Form, PART};
    use crate::reading::{Stretch, Unread};
    use crate::steady::State;
    use dequmlo::{Threads, Widths};
    use std::fs;
    use std::io::{Cursor, Error, Read, Result, Seek, SeekFrom};
    use std::path::{Path, PathBuf};

    fn under() -> Under<'static> {
        Under {
            threads: Threads::of(2),
            key: None,
            domain: b"d",
            widths: Widths::Present,
            k: 1,
            made: Made::Both,
        }
    }

    /// A folder of its own with these files, and their states.
    fn folder(name: &str, files: &[(&str, &[u8])]) -> (PathBuf, Vec<(Vec<u8>, State)>) {
        let folder = std::env::temp_dir().join(format!("seal-{name}-{}", std::process::id()));
        fs::create_dir_all(&folder).unwrap();
        let state = |(name, bytes): &(&str, &[u8])| {
            fs::write(folder.join(name), bytes).unwrap();
            let found = fs::metadata(folder.join(name)).unwrap();
            (name.as_bytes().to_vec(), State::of(&found))
        };
        let states = files.iter().map(state).collect();
        (folder, states)
    }

    #[test]
    fn a_file_that_is_in_another_state_than_when_it_was_listed_is_not_read() {
        let (folder, files) = folder("part", &[("a", b"plans"), ("b", b"plans")]);
        let path = folder.join("a");
        let (state, other) = (files[0].1, files[1].1);
        let mut read = b"the part before, which was longer".to_vec();
        assert!(part_of_file(&mut read, &path, state, 0).is_ok());
        assert_eq!(read, b"plans");
        for length in [0, 4, 6, PART, PART + 1] {
            let mut listed = state;
            listed.length = length;
            let said = part_of_file(&mut read, &path, listed, 0);
            assert!(matches!(said, Err(Unread::Changed)), "{length}: {said:?}");
        }
        let replaced = part_of_file(&mut read, &path, other, 0);
        assert!(matches!(replaced, Err(Unread::Changed)), "{replaced:?}");
        fs::remove_file(&path).unwrap();
        let removed = part_of_file(&mut read, &path, state, 0);
        assert!(matches!(removed, Err(Unread::Changed)), "{removed:?}");
        fs::remove_dir_all(folder).unwrap();
    }

    /// A file on a disk that fails from a byte on.
    struct Failing {
        file: Cursor<Vec<u8>>,
        from: u64,
    }

    impl Read for Failing {
        fn read(&mut self, room: &mut [u8]) -> Result<usize> {
            let left = self.from.saturating_sub(self.file.position()) as usize;
            if left == 0 {
                return Err(Error::from_raw_os_error(5));
            }
            let most = room.len().min(left);
            self.file.read(&mut room[..most])
        }
    }

    impl Seek for Failing {
        fn seek(&mut self, to: SeekFrom) -> Result<u64> {
            self.file.seek(to)
        }
    }

    /// Reads the files, of which `b` is on a disk that fails in its middle.
    fn with_a_bad_disk(
        read: &mut Vec<u8>,
        path: &Path,
        state: State,
        index: usize,
    ) -> std::result::Result<(), Unread> {
        if !path.ends_with("b") {
            return part_of_file(read, path, state, index);
        }
        let stretch = Stretch {
            start: 0,
            size: 4000,
        };
        let file = Cursor::new(fs::read(path)?);
        stretch.read(read, Failing { file, from: 1000 })?;
        Ok(())
    }

    #[test]
    fn a_read_that_fails_in_the_middle_of_a_file_keeps_nothing_from_the_others() {
        let bytes = [7; 3000];
        let (folder, files) = folder("disk", &[("a", &bytes), ("b", &bytes), ("c", &bytes)]);
        let place = Place::Folder(&folder);
        let all = committed(
            place,
            &files,
            under(),
            &part_of_file,
            &|_, _| unreachable!(),
        );
        let all = all.ok().unwrap();
        let said = |_: &Path, e: Unread| Ok(e.to_string());
        let found = committed(place, &files, under(), &with_a_bad_disk, &said);
        let found = found.ok().unwrap();
        assert_eq!((&found[0], &found[2]), (&all[0], &all[2]));
        assert_eq!(found[1].parts, [Err("Input/output error".to_string())]);
        assert_eq!(
            found
                .iter()
                .filter_map(|file| file.entry(Form::Second))
                .count(),
            2
        );
        // Of the digests alone no manifest is made, and nothing else differs.
        let made = Made::Digests;
        let digests = committed(
            place,
            &files,
            Under { made, ..under() },
            &part_of_file,
            &said,
        );
        let digests = digests.ok().unwrap();
        assert_eq!(
            digests[0].marks(|mark| mark.digest),
            all[0].marks(|mark| mark.digest)
        );
        assert_eq!(digests[0].entry(Form::First), None);
        // A commit ends there.
        let ends = |_: &Path, e| Err(Stop::Failed(crate::outcome::Failure(format!("{e}"))));
        let ended = committed(place, &files, under(), &with_a_bad_disk, &ends);
        assert!(matches!(ended, Err(Stop::Failed(_))));
        fs::remove_dir_all(folder).unwrap();
    }
}
