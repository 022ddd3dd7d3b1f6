//! A file that is written whole or not at all.

use std::ffi::OsString;
use std::fs::{self, File, Metadata, OpenOptions};
use std::io::{self, BufWriter, ErrorKind, Write};
use std::path::{Path, PathBuf};
use std::process;

use crate::failure::Failure;
use crate::interrupt;

/// Names tried for the temporary file before giving up.
const MOST_NAMES: u32 = 100;

/// A file under a temporary name beside its own. [`Output::finish`] gives it
/// its name; if that is not reached the file is removed.
pub struct Output {
    file: BufWriter<File>,
    temporary: PathBuf,
    /// The path as it was given.
    target: PathBuf,
    place: Place,
    finished: bool,
}

impl Output {
    /// Begins the file. It may replace a regular file, but none of the inputs.
    pub fn create(target: &Path, inputs: &[&Path]) -> Result<Output, Failure> {
        let unusable = |error: io::Error| Failure::unusable(target.display(), error);
        let place = Place::find(target).map_err(unusable)?;
        if place.is_one_of(inputs) {
            return Err(Failure::unusable(
                target.display(),
                "is one of the inputs, and would be overwritten",
            ));
        }
        // From here on there is something to remove.
        interrupt::listen();
        let (file, temporary) = temporary_file(&place.path).map_err(unusable)?;
        Ok(Output {
            file: BufWriter::new(file),
            temporary,
            target: target.to_owned(),
            place,
            finished: false,
        })
    }

    /// Writes more of the file.
    pub fn write_with(
        &mut self,
        write: impl FnOnce(&mut BufWriter<File>) -> io::Result<()>,
    ) -> Result<(), Failure> {
        write(&mut self.file).map_err(|error| self.unusable(error))
    }

    /// Gives the file its name.
    pub fn finish(mut self) -> Result<(), Failure> {
        self.file
            .flush()
            .and_then(|()| self.file.get_ref().sync_all())
            .map_err(|error| self.unusable(error))?;
        interrupt::test()?;
        self.take_place().map_err(|error| self.unusable(error))?;
        self.finished = true;
        Ok(())
    }

    /// Renames the file. The work may have been long, so that its place is looked
    /// at again: what came there since was not meant to be replaced.
    fn take_place(&self) -> io::Result<()> {
        if Place::find(&self.target)? != self.place {
            return Err(io::Error::other(
                "was changed by another program meanwhile, and is left so",
            ));
        }
        fs::rename(&self.temporary, &self.place.path)
    }

    fn unusable(&self, error: io::Error) -> Failure {
        Failure::unusable(self.target.display(), error)
    }
}

impl Drop for Output {
    fn drop(&mut self) {
        if !self.finished {
            // There is nobody left to tell.
            let _ = fs::remove_file(&self.temporary);
        }
    }
}

/// Where a file is to be, and which file is there.
#[derive(PartialEq, Eq)]
struct Place {
    path: PathBuf,
    /// None for a new file.
    taken: Option<Identity>,
}

impl Place {
    /// The place that a path leads to, through links. Whatever has the name, and be
    /// it a link, must lead to a regular file: a rename would replace a device, a
    /// pipe or a link, and not write to it.
    fn find(target: &Path) -> io::Result<Place> {
        match fs::symlink_metadata(target) {
            Ok(_) => Place::of_file(target),
            Err(error) if error.kind() == ErrorKind::NotFound => Place::of_new(target),
            Err(error) => Err(error),
        }
    }

    /// A slash or a dot at a path's end is for a folder, and `file_name` passes over it.
    fn of_new(target: &Path) -> io::Result<Place> {
        let name = target.file_name().unwrap_or_default();
        let bytes = target.as_os_str().as_encoded_bytes();
        if name.is_empty() || !bytes.ends_with(name.as_encoded_bytes()) {
            return Err(io::Error::other("no name for a file"));
        }
        Ok(Place {
            path: target.to_owned(),
            taken: None,
        })
    }

    fn of_file(target: &Path) -> io::Result<Place> {
        let end = fs::metadata(target).map_err(|error| match error.kind() {
            ErrorKind::NotFound => io::Error::other("a link that leads nowhere"),
            _ => error,
        })?;
        if !end.is_file() {
            return Err(io::Error::other("not a regular file"));
        }
        let taken = identity(&end);
        match name_of(target, taken) {
            Some(path) => Ok(Place {
                path,
                taken: Some(taken),
            }),
            None => Err(io::Error::other("leads to a file without a name")),
        }
    }

    fn is_one_of(&self, inputs: &[&Path]) -> bool {
        let is_this = |input: &&Path| fs::canonicalize(input).is_ok_and(|path| path == self.path);
        inputs.iter().any(is_this)
    }
}

/// What tells a file from another that has taken its name.
type Identity = (u64, u64);

#[cfg(unix)]
fn identity(file: &Metadata) -> Identity {
    use std::os::unix::fs::MetadataExt;
    (file.dev(), file.ino())
}

/// Elsewhere the name has to do.
#[cfg(not(unix))]
fn identity(_: &Metadata) -> Identity {
    (0, 0)
}

/// The name of the file that a path leads to. A link to an open file, as /dev/stdout,
/// says the name that the file once had, which may be nobody's or another's by now.
fn name_of(target: &Path, file: Identity) -> Option<PathBuf> {
    let path = fs::canonicalize(target).ok()?;
    let named = fs::symlink_metadata(&path).ok()?;
    (identity(&named) == file).then_some(path)
}

/// A new file beside the target, and its path.
fn temporary_file(target: &Path) -> io::Result<(File, PathBuf)> {
    let name = target.file_name().unwrap_or_default();
    let mut attempt = 0;
    loop {
        let mut hidden = OsString::from(".");
        hidden.push(name);
        hidden.push(format!(".{}-{attempt}.tmp", process::id()));
        let path = target.with_file_name(hidden);
        match OpenOptions::new().write(true).create_new(true).open(&path) {
            Err(error) if error.kind() == ErrorKind::AlreadyExists && attempt < MOST_NAMES => {
                attempt += 1;
            }
            opened => return opened.map(|file| (file, path)),
        }
    }
}
