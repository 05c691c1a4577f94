//! Files written whole or not at all, and pairs that belong together.
//!
//! A label is a file that says how others are to be read: the ENVI header of data, or
//! the stored header of a cube. All files are first written whole under temporary
//! names. Then old labels are taken away, the other files are given their names, and
//! the new labels come last. So at every moment a label that stands belongs to the
//! file it stands beside; a kill in between leaves no label, which is to say no pair.
//! After an error all is put back in the opposite order, old labels last; where even
//! that fails, old labels stay away.

use std::collections::hash_map::RandomState;
use std::fs::{self, File, Metadata, OpenOptions};
use std::hash::{BuildHasher, Hasher};
use std::io::{self, BufWriter, ErrorKind, Write};
use std::os::unix::fs::{fchown, MetadataExt, PermissionsExt};
use std::path::{Path, PathBuf};
use std::sync::atomic::{AtomicU64, Ordering};
use std::sync::OnceLock;
use std::time::{Duration, SystemTime, UNIX_EPOCH};

use super::console::note;
use super::failure::Failure;
use super::signals::{without_stop, Watched};

/// The beginning of every temporary name; short, so that it fits wherever a name does.
const PREFIX: &str = ".remulingka-";
/// A temporary file of a run that is long gone.
const STALE: Duration = Duration::from_secs(24 * 3600);
/// An exchange of files is long over.
const EXCHANGED: Duration = Duration::from_secs(60);
/// So many links are followed, as the system does.
const MOST_LINKS: usize = 40;

/// A name in the same folder that no file has; the same folder means the same disk,
/// where a renaming is one step. A number of the process would not do: in containers
/// that of a killed one comes again.
fn temporary_beside(path: &Path, ending: &str) -> PathBuf {
    static RUN: OnceLock<u64> = OnceLock::new();
    static COUNT: AtomicU64 = AtomicU64::new(0);
    let run = RUN.get_or_init(|| RandomState::new().build_hasher().finish());
    let count = COUNT.fetch_add(1, Ordering::Relaxed);
    path.with_file_name(format!("{PREFIX}{run:016x}-{count}.{ending}"))
}

fn folder_of(path: &Path) -> &Path {
    match path.parent() {
        Some(folder) if !folder.as_os_str().is_empty() => folder,
        _ => Path::new("."),
    }
}

/// Where a name leads: links are followed, those that lead nowhere too, and the folder
/// has one name only, so that two names of one file are seen to be one.
fn followed(path: &Path) -> PathBuf {
    let mut path = path.to_path_buf();
    for _ in 0..MOST_LINKS {
        match fs::read_link(&path) {
            Ok(next) => path = folder_of(&path).join(next),
            Err(_) => break,
        }
    }
    match (fs::canonicalize(folder_of(&path)), path.file_name()) {
        (Ok(folder), Some(name)) => folder.join(name),
        _ => path,
    }
}

/// Removes temporary files that killed runs left in a folder, and names the older
/// files that they left. A file that is being written is locked, and one that cannot be
/// locked is left alone.
fn look_for_left(folder: &Path) {
    let entries = fs::read_dir(folder).into_iter().flatten().flatten();
    for entry in entries {
        let name = entry.file_name();
        let name = name.to_string_lossy();
        let Ok(metadata) = entry.metadata() else {
            continue;
        };
        if !name.starts_with(PREFIX) {
            continue;
        }
        // When it got this name, whatever its own age is.
        let named = UNIX_EPOCH + Duration::from_secs(metadata.ctime().max(0) as u64);
        if name.ends_with(".old") && is_older(Ok(named), EXCHANGED) {
            let what = "this is an older file that a killed run was about to replace";
            note(&format!("{}: {what}", entry.path().display()));
        }
        let is_free = || File::open(entry.path()).is_ok_and(|file| file.try_lock().is_ok());
        if name.ends_with(".part") && is_older(metadata.modified(), STALE) && is_free() {
            let _ = fs::remove_file(entry.path());
        }
    }
}

fn is_older(time: io::Result<SystemTime>, than: Duration) -> bool {
    time.is_ok_and(|time| time.elapsed().is_ok_and(|age| age > than))
}

/// A file that is to be given its name.
struct Output {
    /// The name as the user gave it.
    named: PathBuf,
    /// The name behind all links.
    target: PathBuf,
    is_label: bool,
    /// What is there already.
    old: Option<Metadata>,
    /// The new file; nothing where the old one is only to be taken away.
    new: Option<Temporary>,
    /// Where the old file is kept until all is done.
    kept: Option<PathBuf>,
    is_placed: bool,
}

/// A file under a temporary name, which is removed unless it is given its own. It is
/// closed: there may be more of them than a program may have open.
struct Temporary {
    path: PathBuf,
    _watched: Watched,
}

impl Drop for Temporary {
    fn drop(&mut self) {
        // After the naming there is nothing here to remove.
        let _ = fs::remove_file(&self.path);
    }
}

/// Files that are to be written together.
pub struct Replacement {
    is_forced: bool,
    outputs: Vec<Output>,
    /// The folders that were looked through for what killed runs left.
    folders: Vec<PathBuf>,
}

/// Says whether a file may be written: nothing that exists is replaced unless that is
/// forced, and nothing that is read-only or no ordinary file at all.
pub fn may_write(path: &Path, is_forced: bool) -> Result<Option<Metadata>, Failure> {
    let target = followed(path);
    let old = match fs::symlink_metadata(&target) {
        Ok(old) => old,
        Err(error) if error.kind() == ErrorKind::NotFound => return Ok(None),
        Err(error) => return Err(Failure::file(path, error)),
    };
    if !old.is_file() {
        return Err(Failure::file(
            path,
            "this is no ordinary file; it is left alone",
        ));
    }
    if !is_forced {
        return Err(Failure::file(
            path,
            "this exists already; --force replaces it",
        ));
    }
    if old.permissions().readonly() {
        let what = "this is read-only, and is not replaced even with --force";
        return Err(Failure::file(path, what));
    }
    Ok(Some(old))
}

impl Replacement {
    pub fn new(is_forced: bool) -> Replacement {
        Replacement {
            is_forced,
            outputs: Vec::new(),
            folders: Vec::new(),
        }
    }

    /// Adds a file that `write` fills.
    pub fn add(
        &mut self,
        path: &Path,
        write: impl FnOnce(&mut BufWriter<File>) -> io::Result<()>,
    ) -> Result<(), Failure> {
        self.add_output(path, false, write)
    }

    /// Adds a label with its text.
    pub fn add_label(&mut self, path: &Path, text: &[u8]) -> Result<(), Failure> {
        self.add_output(path, true, |writer| writer.write_all(text))
    }

    /// Takes an old label away, if there is one.
    pub fn remove_label(&mut self, path: &Path) -> Result<(), Failure> {
        if let Some(old) = may_write(path, self.is_forced)? {
            self.outputs.push(Output {
                named: path.to_path_buf(),
                target: followed(path),
                is_label: true,
                old: Some(old),
                new: None,
                kept: None,
                is_placed: false,
            });
        }
        Ok(())
    }

    fn add_output(
        &mut self,
        path: &Path,
        is_label: bool,
        write: impl FnOnce(&mut BufWriter<File>) -> io::Result<()>,
    ) -> Result<(), Failure> {
        let old = may_write(path, self.is_forced)?;
        let target = followed(path);
        if self.outputs.iter().any(|output| output.target == target) {
            return Err(Failure::Usage(format!(
                "{}: this is named for two outputs",
                path.display()
            )));
        }
        let folder = folder_of(&target).to_path_buf();
        if !self.folders.contains(&folder) {
            look_for_left(&folder);
            self.folders.push(folder);
        }
        let new = temporary(&target, old.as_ref(), write);
        let new = new.map_err(|error| Failure::file(path, error))?;
        self.outputs.push(Output {
            named: path.to_path_buf(),
            target,
            is_label,
            old,
            new: Some(new),
            kept: None,
            is_placed: false,
        });
        Ok(())
    }

    /// Gives all files their names.
    pub fn finish(mut self) -> Result<(), Failure> {
        let done = without_stop(|| {
            let done = self.exchange();
            if let Err((failed, error)) = &done {
                self.put_back()
                    .map_err(|kept| (*failed, format!("{error}; {kept}")))?;
            }
            done.map_err(|(failed, error)| (failed, error.to_string()))
        });
        if let Err((failed, what)) = done {
            return Err(Failure::file(&self.outputs[failed].named, what));
        }
        for kept in self
            .outputs
            .iter()
            .filter_map(|output| output.kept.as_ref())
        {
            let _ = fs::remove_file(kept);
        }
        Ok(())
    }

    /// Old labels away, files, new labels; the output that failed, and why.
    fn exchange(&mut self) -> Result<(), (usize, io::Error)> {
        let is_forced = self.is_forced;
        self.each(|output| output.is_label, Output::take_away)?;
        self.each(|output| !output.is_label, |output| output.place(is_forced))?;
        self.each(|output| output.is_label, |output| output.place(is_forced))
    }

    /// Does a step for some outputs, and sees that it is on the disk before the next.
    fn each(
        &mut self,
        is_meant: impl Fn(&Output) -> bool,
        step: impl Fn(&mut Output) -> io::Result<()>,
    ) -> Result<(), (usize, io::Error)> {
        let mut folders: Vec<(usize, PathBuf)> = Vec::new();
        for (index, output) in self.outputs.iter_mut().enumerate() {
            if is_meant(output) {
                step(output).map_err(|error| (index, error))?;
                let folder = folder_of(&output.target).to_path_buf();
                if folders.iter().all(|(_, known)| *known != folder) {
                    folders.push((index, folder));
                }
            }
        }
        for (index, folder) in folders {
            sync_folder(&folder).map_err(|error| (index, error))?;
        }
        Ok(())
    }

    /// Puts the old files back: new labels away, files, old labels. It stops where a
    /// step fails, and says where the old files are.
    fn put_back(&mut self) -> Result<(), String> {
        let put_back = |outputs: &mut [Output]| -> io::Result<()> {
            for output in outputs.iter_mut().filter(|output| output.is_label) {
                output.remove_placed()?;
            }
            for output in outputs.iter_mut().filter(|output| !output.is_label) {
                output.restore()?;
            }
            for output in outputs.iter_mut().filter(|output| output.is_label) {
                output.restore()?;
            }
            Ok(())
        };
        let Err(error) = put_back(&mut self.outputs) else {
            return Ok(());
        };
        let mut what = format!("and putting back failed: {error}");
        for output in &self.outputs {
            if let Some(kept) = &output.kept {
                let (kept, named) = (kept.display(), output.named.display());
                what.push_str(&format!("; the older {named} is kept as {kept}"));
            }
        }
        Err(what)
    }
}

impl Output {
    /// Takes the old file away, to be kept.
    fn take_away(&mut self) -> io::Result<()> {
        if self.old.is_some() {
            let kept = temporary_beside(&self.target, "old");
            fs::rename(&self.target, &kept)?;
            self.kept = Some(kept);
        }
        Ok(())
    }

    /// Gives the new file its name in one step.
    fn place(&mut self, is_forced: bool) -> io::Result<()> {
        let Some(new) = &self.new else {
            return Ok(());
        };
        if !is_forced {
            place_where_nothing_is(&new.path, &self.target)?;
        } else {
            if self.old.is_some() && !self.is_label {
                // The old file keeps its name until the new one has it. Where the disk
                // knows no second names it is taken away first.
                let kept = temporary_beside(&self.target, "old");
                if fs::hard_link(&self.target, &kept).is_err() {
                    fs::rename(&self.target, &kept)?;
                }
                self.kept = Some(kept);
            }
            fs::rename(&new.path, &self.target)?;
        }
        self.is_placed = true;
        Ok(())
    }

    fn remove_placed(&mut self) -> io::Result<()> {
        if self.is_placed {
            fs::remove_file(&self.target)?;
            self.is_placed = false;
        }
        Ok(())
    }

    /// Gives the old file its name again.
    fn restore(&mut self) -> io::Result<()> {
        match &self.kept {
            Some(kept) => {
                fs::rename(kept, &self.target)?;
                // Two names of one file are not renamed over each other.
                let _ = fs::remove_file(kept);
                self.kept = None;
                self.is_placed = false;
                Ok(())
            }
            None => self.remove_placed(),
        }
    }
}

/// Names a file only where no other has the name, in one step where the disk can.
fn place_where_nothing_is(from: &Path, target: &Path) -> io::Result<()> {
    match fs::hard_link(from, target) {
        Ok(()) => Ok(()),
        Err(error) if error.kind() == ErrorKind::AlreadyExists => Err(error),
        // No second names on this disk.
        Err(_) if fs::symlink_metadata(target).is_err() => fs::rename(from, target),
        Err(error) => Err(error),
    }
}

/// Sees that a folder's names are on the disk. Some disks know no such thing.
fn sync_folder(folder: &Path) -> io::Result<()> {
    match File::open(folder)?.sync_all() {
        Err(error) if error.kind() == ErrorKind::InvalidInput => Ok(()),
        done => done,
    }
}

/// Writes a file beside its target, with the mode and the owner of the old one, and
/// sees that it is on the disk.
fn temporary(
    target: &Path,
    old: Option<&Metadata>,
    write: impl FnOnce(&mut BufWriter<File>) -> io::Result<()>,
) -> io::Result<Temporary> {
    let path = temporary_beside(target, "part");
    let watched = Watched::new(&path);
    let file = OpenOptions::new()
        .write(true)
        .read(true)
        .create_new(true)
        .open(&path)?;
    let new = Temporary {
        path,
        _watched: watched,
    };
    // The lock says that the file is being written; not every disk has locks.
    let _ = file.try_lock();
    let mut writer = BufWriter::with_capacity(1 << 16, file);
    write(&mut writer)?;
    writer.flush()?;
    let file = writer.get_ref();
    if let Some(old) = old {
        let now = file.metadata()?;
        if (now.uid(), now.gid()) != (old.uid(), old.gid()) {
            fchown(file, Some(old.uid()), Some(old.gid()))?;
        }
        file.set_permissions(fs::Permissions::from_mode(old.mode() & 0o7777))?;
    }
    file.sync_all()?;
    Ok(new)
}
