//! Finds the sheets of several folders, tables and marks without a sheet, and what else is to be mentioned.

use super::shard::Shard;
use crate::replace::is_temporary;
use std::collections::{BTreeMap, BTreeSet, HashSet};
use std::ffi::{OsStr, OsString};
use std::fs;
use std::io;
use std::os::unix::ffi::{OsStrExt, OsStringExt};
use std::os::unix::fs::MetadataExt;
use std::path::{Path, PathBuf};

const SHEET: &[u8] = b".pcrl";
const TABLE: &[u8] = b".table";
const MARK: &[u8] = b".refused";

/// A folder's device and its number there.
type Identity = (u64, u64);

/// A sheet, the place of its table, and that of its mark.
pub struct Sheet {
    pub path: PathBuf,
    pub table: PathBuf,
    pub mark: PathBuf,
}

/// What a collection holds of a shard; the sheets are sorted by name.
#[derive(Default)]
pub struct Found {
    pub sheets: Vec<Sheet>,
    /// Tables without a sheet.
    pub tables: Vec<PathBuf>,
    /// Files without a sheet whose names are those of marks.
    pub marks: Vec<PathBuf>,
    /// Temporary files.
    pub left_over: Vec<PathBuf>,
    /// Files that have the ending of sheets in other letters.
    pub large: Vec<PathBuf>,
    /// Folders that cannot be read, whatever the shard.
    pub unread: Vec<(PathBuf, io::Error)>,
    /// Of the folders to search those without a sheet, whatever the shard.
    pub empty: Vec<PathBuf>,
    /// The folders that were taken in, so that none is twice.
    taken: HashSet<Identity>,
}

/// What one folder holds.
#[derive(Default)]
struct Listing {
    /// The names of sheets, tables and marks without their endings.
    names: BTreeMap<Vec<u8>, Beside>,
    folders: Vec<PathBuf>,
    linked: Vec<PathBuf>,
    left_over: Vec<OsString>,
    large: Vec<OsString>,
}

/// What there is of a name.
#[derive(Default)]
struct Beside {
    sheet: bool,
    table: bool,
    mark: bool,
}

/// Searches folders with their subfolders, each once. What shard a file is of, its path from its folder on says.
pub fn search(roots: &[OsString], shard: Shard) -> Found {
    let mut found = Found::default();
    for root in roots {
        found.search(Path::new(root), shard);
    }
    found.sheets.sort_by(|a, b| a.path.cmp(&b.path));
    found
}

impl Found {
    /// Searches one folder. Links to folders come last, so that a folder is reported by its own name; those that lead
    /// upwards are circles and are not followed.
    fn search(&mut self, root: &Path, shard: Shard) {
        let top = match fs::canonicalize(root) {
            Ok(top) => top,
            Err(error) => return self.unread.push((root.to_path_buf(), error)),
        };
        let (mut seen, mut linked) = (HashSet::new(), BTreeSet::new());
        let (mut folders, mut sheets, unread) = (vec![root.to_path_buf()], 0, self.unread.len());
        while let Some(folder) = folders.pop().or_else(|| linked.pop_first()) {
            match visit(&folder, &mut seen) {
                Ok(None) => {}
                Ok(Some((identity, mut listing))) => {
                    sheets += listing.names.values().filter(|name| name.sheet).count();
                    folders.append(&mut listing.folders);
                    let links = listing.linked.drain(..);
                    linked.extend(links.filter(|link| !leads_up(link, &folder, &top)));
                    if self.taken.insert(identity) {
                        let inner = folder.strip_prefix(root).unwrap_or(&folder);
                        self.take(&folder, listing, |name| shard.has(&inner.join(name)));
                    }
                }
                Err(error) => self.unread.push((folder, error)),
            }
        }
        if sheets == 0 && self.unread.len() == unread {
            self.empty.push(root.to_path_buf());
        }
    }

    /// Takes in what a folder holds, where its name is of the shard.
    fn take(&mut self, folder: &Path, listing: Listing, has: impl Fn(&OsStr) -> bool) {
        for (name, beside) in listing.names {
            if !has(OsStr::from_bytes(&name)) {
                continue;
            }
            let place = |ending| folder.join(ended(&name, ending));
            let (path, table, mark) = (place(SHEET), place(TABLE), place(MARK));
            if beside.sheet {
                self.sheets.push(Sheet { path, table, mark });
                continue;
            }
            self.tables.extend(beside.table.then_some(table));
            self.marks.extend(beside.mark.then_some(mark));
        }
        let of_shard = |names: Vec<OsString>| {
            let names = names.into_iter().filter(|name| has(name));
            names.map(|name| folder.join(name)).collect::<Vec<_>>()
        };
        self.left_over.extend(of_shard(listing.left_over));
        self.large.extend(of_shard(listing.large));
    }
}

/// Lists a folder, unless it was listed before under another name.
fn visit(folder: &Path, seen: &mut HashSet<Identity>) -> io::Result<Option<(Identity, Listing)>> {
    let about = fs::metadata(folder)?;
    let identity = (about.dev(), about.ino());
    if !seen.insert(identity) {
        return Ok(None);
    }
    let mut listing = Listing::default();
    for entry in fs::read_dir(folder)? {
        let entry = entry?;
        let kind = match entry.file_type() {
            // removed since, such as a temporary file of another `renew`
            Err(error) if error.kind() == io::ErrorKind::NotFound => continue,
            kind => kind?,
        };
        let (path, name) = (entry.path(), entry.file_name());
        if kind.is_dir() {
            listing.folders.push(path);
        } else if kind.is_symlink() && path.is_dir() {
            listing.linked.push(path);
        } else if kind.is_file() && is_temporary(&name) {
            listing.left_over.push(name);
        } else {
            listing.name(name);
        }
    }
    Ok(Some((identity, listing)))
}

impl Listing {
    fn name(&mut self, name: OsString) {
        let bytes = name.as_bytes();
        let stem = |ending| bytes.strip_suffix(ending).map(<[u8]>::to_vec);
        if let Some(stem) = stem(SHEET) {
            self.names.entry(stem).or_default().sheet = true;
        } else if let Some(stem) = stem(TABLE) {
            self.names.entry(stem).or_default().table = true;
        } else if let Some(stem) = stem(MARK) {
            self.names.entry(stem).or_default().mark = true;
        } else if bytes.to_ascii_lowercase().ends_with(SHEET) {
            self.large.push(name);
        }
    }
}

/// Whether a link leads to a folder that holds the folder where the link is, or the whole collection.
fn leads_up(link: &Path, folder: &Path, top: &Path) -> bool {
    match (fs::canonicalize(link), fs::canonicalize(folder)) {
        (Ok(target), Ok(here)) => here.starts_with(&target) || top.starts_with(&target),
        _ => false,
    }
}

fn ended(name: &[u8], ending: &[u8]) -> OsString {
    OsString::from_vec([name, ending].concat())
}
