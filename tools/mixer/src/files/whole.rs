//! Files that are written as a whole: beside their place first, and renamed when all is on the disk. Whatever goes
//! wrong before that leaves the old file as it was.
use super::standard;
use std::fs::{self, File, Metadata, OpenOptions, Permissions};
use std::io::{self, Write};
use std::os::unix::fs::{fchown, MetadataExt, OpenOptionsExt, PermissionsExt};
use std::path::{Path, PathBuf};
use std::process;

/// Puts these bytes in the place of the file, or makes it.
pub fn write(path: &Path, bytes: &[u8]) -> io::Result<()> {
    let old = match fs::metadata(path) {
        Err(error) if error.kind() == io::ErrorKind::NotFound => None,
        found => Some(found?),
    };
    match old {
        Some(old) if old.is_dir() => Err(io::ErrorKind::IsADirectory.into()),
        // A pipe or a device: renaming would put a file in its place.
        Some(old) if !old.is_file() => direct(path, bytes),
        old => replace(&place(path)?, bytes, old),
    }
}

fn direct(path: &Path, bytes: &[u8]) -> io::Result<()> {
    let mut file = OpenOptions::new().write(true).open(path)?;
    standard::for_a_terminal(&file, bytes)?;
    file.write_all(bytes)
}

/// Where the file itself stands: behind a link its target, whether it is there or not yet. The link stays.
fn place(path: &Path) -> io::Result<PathBuf> {
    match fs::canonicalize(path) {
        Err(error) if error.kind() == io::ErrorKind::NotFound => match fs::read_link(path) {
            Ok(target) => place(&folder(path).join(target)),
            Err(_) => Ok(path.to_owned()),
        },
        found => found,
    }
}

fn folder(path: &Path) -> &Path {
    match path.parent() {
        Some(folder) if folder != Path::new("") => folder,
        _ => Path::new("."),
    }
}

fn replace(path: &Path, bytes: &[u8], old: Option<Metadata>) -> io::Result<()> {
    if old.is_some() {
        // A file that may not be written is not taken away by a new one, either.
        OpenOptions::new().write(true).open(path)?;
    }
    // What replaces a file is nobody else's to read before it has that file's permissions.
    let mode = if old.is_some() { 0o600 } else { 0o666 };
    let (file, beside) = Beside::create(folder(path), mode)?;
    fill(file, bytes, old)?;
    fs::rename(&beside.path, path)?;
    beside.keep();
    Ok(())
}

/// Writes all bytes to the disk, with the owner and the permissions of the file that was there.
fn fill(mut file: File, bytes: &[u8], old: Option<Metadata>) -> io::Result<()> {
    file.write_all(bytes)?;
    if let Some(old) = old {
        let in_group = fchown(&file, None, Some(old.gid())).is_ok();
        // Only some may give a file away; to everybody else it stays their own.
        let _ = fchown(&file, Some(old.uid()), None);
        let mode = Permissions::from_mode(mode(old.mode(), in_group));
        file.set_permissions(mode)?;
    }
    file.sync_all()
}

/// The permissions of a file that was replaced; where its group could not be kept, what was the group's is nobody's.
fn mode(old: u32, in_group: bool) -> u32 {
    let all = old & 0o777;
    match in_group {
        true => all,
        false => all & !0o070,
    }
}

/// A new file that is taken away again, unless it is kept.
struct Beside {
    path: PathBuf,
}

impl Beside {
    /// A file of a name that no file in the folder has. It is short, since the file's own may be as long as any.
    fn create(folder: &Path, mode: u32) -> io::Result<(File, Beside)> {
        let mut options = OpenOptions::new();
        options.write(true).create_new(true).mode(mode);
        let mut number = 0;
        loop {
            let path = folder.join(format!(".mixer-{}-{number}", process::id()));
            match options.open(&path) {
                Err(error) if error.kind() == io::ErrorKind::AlreadyExists => number += 1,
                Err(error) if error.kind() == io::ErrorKind::PermissionDenied => {
                    return Err(io::Error::other("not allowed to make a file in its folder"))
                }
                made => return Ok((made?, Beside { path })),
            }
        }
    }

    fn keep(self) {
        std::mem::forget(self);
    }
}

impl Drop for Beside {
    fn drop(&mut self) {
        // The failure that led here is reported; a second one would say no more.
        let _ = fs::remove_file(&self.path);
    }
}

#[cfg(test)]
pub mod tests {
    use super::*;
    use std::os::unix::fs::symlink;

    /// A folder for a test, taken away behind it.
    pub struct Folder(PathBuf);

    impl Folder {
        pub fn new(name: &str) -> Folder {
            let path = std::env::temp_dir().join(format!("mixer-test-{name}-{}", process::id()));
            // A test that was killed may have left one.
            let _ = fs::remove_dir_all(&path);
            fs::create_dir(&path).unwrap();
            Folder(path)
        }

        pub fn path(&self, name: &str) -> PathBuf {
            self.0.join(name)
        }

        fn names(&self) -> Vec<String> {
            let name = |entry: io::Result<fs::DirEntry>| entry.unwrap().file_name();
            let mut names: Vec<String> = fs::read_dir(&self.0)
                .unwrap()
                .map(|entry| name(entry).into_string().unwrap())
                .collect();
            names.sort();
            names
        }
    }

    impl Drop for Folder {
        fn drop(&mut self) {
            let _ = fs::remove_dir_all(&self.0);
        }
    }

    #[test]
    fn a_file_is_replaced_and_keeps_its_permissions() {
        let folder = Folder::new("replaced");
        let path = folder.path("a");
        write(&path, b"old").unwrap();
        fs::set_permissions(&path, Permissions::from_mode(0o640)).unwrap();
        write(&path, b"new").unwrap();
        assert_eq!(fs::read(&path).unwrap(), b"new");
        assert_eq!(fs::metadata(&path).unwrap().mode() & 0o777, 0o640);
        assert_eq!(folder.names(), ["a"]);
    }

    #[test]
    fn a_group_that_is_lost_loses_its_permissions() {
        assert_eq!(mode(0o100664, true), 0o664);
        assert_eq!(mode(0o100664, false), 0o604);
    }

    #[test]
    fn a_name_may_be_as_long_as_the_disk_allows() {
        let folder = Folder::new("long");
        write(&folder.path(&"a".repeat(255)), b"x").unwrap();
        assert!(write(&folder.path(&"a".repeat(256)), b"x").is_err());
        assert_eq!(folder.names().len(), 1);
    }

    #[test]
    fn a_link_stays_and_its_file_is_written() {
        let folder = Folder::new("links");
        symlink("b", folder.path("a")).unwrap();
        symlink("c", folder.path("b")).unwrap();
        for bytes in [b"made", b"anew"] {
            write(&folder.path("a"), bytes).unwrap();
            assert_eq!(fs::read(folder.path("c")).unwrap(), bytes);
        }
        assert_eq!(fs::read_link(folder.path("a")).unwrap(), Path::new("b"));
        assert_eq!(folder.names(), ["a", "b", "c"]);
    }

    #[test]
    fn a_failure_leaves_no_file_behind() {
        let folder = Folder::new("failure");
        fs::create_dir(folder.path("sub")).unwrap();
        symlink("loop", folder.path("loop")).unwrap();
        for name in ["sub", "loop", "sub/no/a", "new/"] {
            assert!(write(&folder.path(name), b"x").is_err(), "{name}");
        }
        assert!(write(Path::new(""), b"x").is_err());
        assert_eq!(folder.names(), ["loop", "sub"]);
    }

    #[test]
    fn a_device_stays_a_device() {
        write(Path::new("/dev/null"), b"x").unwrap();
        assert!(!fs::metadata("/dev/null").unwrap().is_file());
        assert!(write(Path::new("/dev/full"), b"x").is_err());
    }
}
