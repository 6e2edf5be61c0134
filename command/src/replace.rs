//! Writes a file so that a crash, a full disk and a reader meanwhile find the old one or the new one.

use std::ffi::OsStr;
use std::fs::{self, File, OpenOptions};
use std::io::{self, Write};
use std::os::unix::ffi::OsStrExt;
use std::os::unix::fs::OpenOptionsExt;
use std::path::{Path, PathBuf};
use std::sync::atomic::{AtomicU32, Ordering};
use std::time::{SystemTime, UNIX_EPOCH};

const FRONT: &str = ".wizbratel-";
const BACK: &str = ".part";

/// How often a file is written again that a `renew` took for left over.
const TRIES: usize = 16;

static NEXT: AtomicU32 = AtomicU32::new(0);

/// Puts a file with these bytes in the place of `path`: written whole beside it, synced, then renamed. A link in that
/// place is replaced, not what it leads to. `mode` says who may read and write the file.
pub fn replace(path: &Path, bytes: &[u8], mode: u32) -> io::Result<()> {
    let mut tries = TRIES;
    loop {
        let (temporary, file) = create(folder_of(path), mode)?;
        let filled = fill(file, bytes);
        match filled.and_then(|()| fs::rename(&temporary, path)) {
            Ok(()) => return Ok(()),
            Err(error) if error.kind() == io::ErrorKind::NotFound && tries > 0 => tries -= 1,
            Err(error) => {
                let _ = fs::remove_file(&temporary);
                return Err(error);
            }
        }
    }
}

/// Makes the names in a folder last.
pub fn sync_folder(folder: &Path) -> io::Result<()> {
    File::open(folder)?.sync_all()
}

/// The folder in which a file is.
pub fn folder_of(path: &Path) -> &Path {
    match path.parent() {
        Some(folder) if !folder.as_os_str().is_empty() => folder,
        _ => Path::new("."),
    }
}

/// A new file under a name that nobody else has.
fn create(folder: &Path, mode: u32) -> io::Result<(PathBuf, File)> {
    loop {
        let path = folder.join(temporary_name());
        match OpenOptions::new()
            .write(true)
            .create_new(true)
            .mode(mode & 0o666)
            .open(&path)
        {
            Ok(file) => return Ok((path, file)),
            Err(error) if error.kind() == io::ErrorKind::AlreadyExists => {}
            Err(error) => return Err(error),
        }
    }
}

fn fill(mut file: File, bytes: &[u8]) -> io::Result<()> {
    file.write_all(bytes)?;
    file.sync_all()
}

/// The process, the time and a count, each in hex.
fn temporary_name() -> String {
    let count = NEXT.fetch_add(1, Ordering::Relaxed);
    let since = SystemTime::now()
        .duration_since(UNIX_EPOCH)
        .unwrap_or_default();
    let time = since.as_nanos() as u64;
    format!(
        "{FRONT}{:08x}-{time:016x}-{count:08x}{BACK}",
        std::process::id()
    )
}

/// Whether a name is one that `temporary_name` gives.
pub fn is_temporary(name: &OsStr) -> bool {
    let inner = name
        .as_bytes()
        .strip_prefix(FRONT.as_bytes())
        .and_then(|rest| rest.strip_suffix(BACK.as_bytes()));
    let Some(inner) = inner else { return false };
    let parts: Vec<&[u8]> = inner.split(|&byte| byte == b'-').collect();
    let widths: Vec<usize> = parts.iter().map(|part| part.len()).collect();
    widths == [8, 16, 8]
        && parts
            .concat()
            .iter()
            .all(|byte| matches!(byte, b'0'..=b'9' | b'a'..=b'f'))
}
