//! Files that a command writes: whole or not at all, and never over one that it reads.

use std::ffi::{OsStr, OsString};
use std::fs::{self, File, Metadata};
use std::io::{self, Write};
use std::os::fd::{AsFd, BorrowedFd};
use std::os::unix::fs::MetadataExt;
use std::path::Path;

use crate::input::{self, is_standard};
use crate::out;
use crate::replace::{folder_of, replace, sync_folder};
use crate::stop::{misuse, Stop};

/// What tells a file from every other, whatever names and links lead to it: its device, and its number there. A pipe or
/// a device has none: it may be read and written at once.
type Identity = (u64, u64);

fn identity(about: &Metadata) -> Option<Identity> {
    about.is_file().then(|| (about.dev(), about.ino()))
}

/// The file that a name leads to, `standard` where the name is `-`.
fn named(name: &OsStr, standard: BorrowedFd) -> Option<Identity> {
    let about = match is_standard(name) {
        true => File::from(standard.try_clone_to_owned().ok()?).metadata(),
        false => fs::metadata(name),
    };
    identity(&about.ok()?)
}

/// Whether standard output goes to this file.
pub fn is_standard_output(about: &Metadata) -> bool {
    is_open(about, io::stdout().as_fd())
}

/// Whether a file that was looked at is the one that is open here.
fn is_open(about: &Metadata, open: BorrowedFd) -> bool {
    let file = identity(about);
    file.is_some() && file == named(OsStr::new("-"), open)
}

/// Refuses outputs that lead to one of the inputs, and two that have one name. What they are is said in messages.
pub fn apart(inputs: &[&OsStr], outputs: &[OsString], what: [&str; 2]) -> Result<(), Stop> {
    let [what, over] = what;
    let read: Vec<_> = inputs
        .iter()
        .filter_map(|input| Some((named(input, io::stdin().as_fd())?, input)))
        .collect();
    for (index, output) in outputs.iter().enumerate() {
        let written = named(output, io::stdout().as_fd());
        if let Some((_, input)) = read.iter().find(|(read, _)| Some(*read) == written) {
            let name = input::shown(input);
            return Err(misuse(format!(
                "{name}: the {what} would go over the {over}"
            )));
        }
        if outputs[..index].iter().any(|other| same(other, output)) {
            let name = Path::new(output).display();
            return Err(misuse(format!("{name}: two {what}s would go there")));
        }
    }
    Ok(())
}

/// Whether two names are one name in one folder.
fn same(one: &OsStr, other: &OsStr) -> bool {
    let (one, other) = (Path::new(one), Path::new(other));
    let folder = |path: &Path| fs::canonicalize(folder_of(path)).ok();
    one == other || one.file_name() == other.file_name() && folder(one) == folder(other)
}

/// Writes an output: standard output, or a file of these permissions.
pub fn write(output: &OsStr, bytes: &[u8], mode: u32) -> Result<(), Stop> {
    let about = fs::metadata(output).ok();
    if is_standard(output) || about.as_ref().is_some_and(is_standard_output) {
        return out::write(bytes);
    }
    match put(Path::new(output), bytes, mode) {
        Ok(()) => Ok(()),
        Err(error) if error.kind() == io::ErrorKind::BrokenPipe => Err(Stop::Closed),
        Err(error) => {
            let name = input::shown(output);
            Err(misuse(format!("{name} cannot be written: {error}")))
        }
    }
}

/// A file is replaced; a pipe, a device and what standard error goes to are written into: /dev/stderr is a link that no
/// file may take the place of.
fn put(path: &Path, bytes: &[u8], mode: u32) -> io::Result<()> {
    match fs::metadata(path) {
        Ok(about) if about.is_dir() => Err(io::ErrorKind::IsADirectory.into()),
        Ok(about) if !about.is_file() => File::options().write(true).open(path)?.write_all(bytes),
        Ok(about) if is_open(&about, io::stderr().as_fd()) => io::stderr().write_all(bytes),
        _ => {
            replace(path, bytes, mode)?;
            sync_folder(folder_of(path))
        }
    }
}
