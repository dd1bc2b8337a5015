//! A file replaced whole or not at all, and a new one made so.
//!
//! The bytes are written to a new file in the same folder, which is synced and
//! then renamed over the old one; at last the folder is synced. Whatever comes
//! between, the name leads to the old file or to the new one. The new file has
//! no name until it is complete (`O_TMPFILE`), so a run that is interrupted
//! leaves nothing behind; only where a filesystem has no such files does it have
//! a name from the start, and only a killed run then leaves it there.

use std::fs::{self, File, Metadata, OpenOptions, Permissions};
use std::io::{self, ErrorKind, Write};
use std::mem;
use std::os::unix::fs::{fchown, MetadataExt, OpenOptionsExt, PermissionsExt};
use std::path::{Path, PathBuf};
use std::process;

/// Links that are followed to a file which is not there yet.
const MOST_LINKS: usize = 40;

/// Puts the bytes into the file so named. A symbolic link is followed. The
/// permissions stay, and the owner where that is allowed. A file that may not be
/// written is not replaced. A device or a pipe is written to.
pub fn replace(path: &Path, bytes: &[u8]) -> io::Result<()> {
    ready(path, bytes)?.appear()?.sync()
}

/// The same up to the last step: all is on the disk, and the name still leads to
/// the old file.
pub fn ready<'a>(path: &Path, bytes: &'a [u8]) -> io::Result<Ready<'a>> {
    match OpenOptions::new().write(true).open(path) {
        Ok(file) => {
            let old = file.metadata()?;
            match old.is_file() {
                true => New::make(fs::canonicalize(path)?, bytes, 0o600, Some(old)).map(Ready::New),
                false => Ok(Ready::Stream(file, bytes)),
            }
        }
        Err(error) if error.kind() == ErrorKind::NotFound => {
            New::make(followed(path)?, bytes, 0o666, None).map(Ready::New)
        }
        Err(error) => Err(error),
    }
}

/// A result that only has to appear.
pub enum Ready<'a> {
    /// A file that replaces an old one, or is made.
    New(New<'a>),
    /// A device or a pipe, and what is written to it.
    Stream(File, &'a [u8]),
}

impl Ready<'_> {
    /// Appears under its name.
    pub fn appear(self) -> io::Result<Appeared> {
        match self {
            Ready::New(new) => {
                let (scratch, path, directory) = new.named()?;
                scratch.rename(&path)?;
                Ok(Appeared(Some(directory)))
            }
            Ready::Stream(mut file, bytes) => {
                file.write_all(bytes)?;
                Ok(Appeared(None))
            }
        }
    }
}

/// A name that leads to the new file, in a folder that is not synced yet.
#[must_use]
pub struct Appeared(Option<File>);

impl Appeared {
    /// Waits until the name is on the disk too.
    pub fn sync(self) -> io::Result<()> {
        self.0.as_ref().map_or(Ok(()), sync_directory)
    }
}

/// A new file on the disk that replaces none; it has no name yet. It has these
/// permissions, less what the user's mask takes.
pub fn anew<'a>(path: &Path, bytes: &'a [u8], mode: u32) -> io::Result<Anew<'a>> {
    if path.symlink_metadata().is_ok() {
        return Err(io::Error::from_raw_os_error(EXISTS));
    }
    New::make(path.to_path_buf(), bytes, mode, None).map(Anew)
}

/// See [`anew`].
pub struct Anew<'a>(New<'a>);

/// `EEXIST`, as the system says it.
const EXISTS: i32 = 17;

impl Anew<'_> {
    /// Appears under its name, if that is still free, and waits until the name is on
    /// the disk too.
    pub fn appear(self) -> io::Result<Made> {
        let Anew(new) = self;
        if let Draft::Nameless(file) = &new.draft {
            if nameless::link(file, &new.path)? {
                return Made::synced(new.path, &new.directory);
            }
        }
        let (scratch, path, directory) = new.named()?;
        match fs::hard_link(&scratch.path, &path) {
            Ok(()) => drop(scratch),
            Err(error) if error.kind() == ErrorKind::AlreadyExists => return Err(error),
            // A filesystem without hard links.
            Err(_) if path.symlink_metadata().is_err() => scratch.rename(&path)?,
            Err(_) => return Err(io::Error::from_raw_os_error(EXISTS)),
        }
        Made::synced(path, &directory)
    }
}

/// A file that was made here and can be taken away again.
pub struct Made(PathBuf);

impl Made {
    fn synced(path: PathBuf, directory: &File) -> io::Result<Self> {
        let made = Made(path);
        match sync_directory(directory) {
            Ok(()) => Ok(made),
            Err(error) => {
                made.take_away();
                Err(error)
            }
        }
    }

    /// Whether this name leads to it.
    pub fn is(&self, path: &Path) -> bool {
        let file = |path: &Path| fs::metadata(path).ok().map(|it| (it.dev(), it.ino()));
        file(path).is_some_and(|other| file(&self.0) == Some(other))
    }

    /// Takes it away.
    pub fn take_away(self) {
        let _ = fs::remove_file(&self.0);
    }
}

/// Where symbolic links lead to, though nothing is there.
fn followed(path: &Path) -> io::Result<PathBuf> {
    let mut path = path.to_path_buf();
    for _ in 0..MOST_LINKS {
        match fs::read_link(&path) {
            Ok(next) => path = path.parent().unwrap_or(Path::new("")).join(next),
            Err(_) => return Ok(path),
        }
    }
    Err(io::Error::other("Too many levels of symbolic links"))
}

/// A new file that is complete, and where it will be.
pub struct New<'a> {
    draft: Draft,
    path: PathBuf,
    folder: PathBuf,
    directory: File,
    bytes: &'a [u8],
    mode: u32,
    old: Option<Metadata>,
}

/// The new file itself.
enum Draft {
    Nameless(File),
    Named(Scratch),
}

impl<'a> New<'a> {
    /// Makes it for a path that is no symbolic link, in the same folder. Until it has
    /// the old one's permissions it has this mode.
    fn make(path: PathBuf, bytes: &'a [u8], mode: u32, old: Option<Metadata>) -> io::Result<Self> {
        let folder = match path.parent() {
            Some(folder) if folder != Path::new("") => folder.to_path_buf(),
            _ => PathBuf::from("."),
        };
        let directory = File::open(&folder)?;
        let draft = match nameless::create(&folder, mode) {
            Some(file) => {
                let file = file?;
                fill(&file, bytes, old.as_ref())?;
                Draft::Nameless(file)
            }
            None => Draft::Named(Scratch::filled(&folder, bytes, mode, old.as_ref())?),
        };
        Ok(New { draft, path, folder, directory, bytes, mode, old })
    }

    /// The file under a name of its own, the name that it will have, and the folder.
    fn named(self) -> io::Result<(Scratch, PathBuf, File)> {
        let New { draft, path, folder, directory, bytes, mode, old } = self;
        let named = match draft {
            Draft::Named(scratch) => Some(scratch),
            Draft::Nameless(file) => nameless::name(&file, &folder)?,
        };
        let scratch = match named {
            Some(scratch) => scratch,
            None => Scratch::filled(&folder, bytes, mode, old.as_ref())?,
        };
        Ok((scratch, path, directory))
    }
}

/// Writes the bytes to a new file, gives it the old one's owner and permissions,
/// and waits until all is on the disk.
fn fill(mut file: &File, bytes: &[u8], old: Option<&Metadata>) -> io::Result<()> {
    file.write_all(bytes)?;
    if let Some(old) = old {
        let new = file.metadata()?;
        let same = (new.uid(), new.gid()) == (old.uid(), old.gid());
        let kept = same || fchown(file, Some(old.uid()), Some(old.gid())).is_ok();
        let bits = if kept { 0o7777 } else { 0o777 };
        file.set_permissions(Permissions::from_mode(old.mode() & bits))?;
    }
    file.sync_all()
}

/// Syncs a folder, where its filesystem can.
fn sync_directory(directory: &File) -> io::Result<()> {
    match directory.sync_all() {
        Err(error) if error.kind() == ErrorKind::InvalidInput => Ok(()),
        other => other,
    }
}

/// A file under a name of its own, which goes when this is dropped.
struct Scratch {
    path: PathBuf,
}

impl Scratch {
    /// Makes a file under a name that is free.
    fn create(folder: &Path, mode: u32) -> io::Result<(Self, File)> {
        Scratch::at_free_name(folder, |path| {
            OpenOptions::new().write(true).create_new(true).mode(mode).open(path)
        })
    }

    /// The same, with bytes in it.
    fn filled(folder: &Path, bytes: &[u8], mode: u32, old: Option<&Metadata>) -> io::Result<Self> {
        let (scratch, file) = Scratch::create(folder, mode)?;
        fill(&file, bytes, old)?;
        Ok(scratch)
    }

    /// Gives it its name for good.
    fn rename(self, path: &Path) -> io::Result<()> {
        fs::rename(&self.path, path)?;
        mem::forget(self);
        Ok(())
    }

    /// Tries names until one is free.
    fn at_free_name<T>(
        folder: &Path,
        make: impl Fn(&Path) -> io::Result<T>,
    ) -> io::Result<(Self, T)> {
        let mut number = 0;
        loop {
            let path = folder.join(format!(".json-patch-{}-{number}.tmp", process::id()));
            match make(&path) {
                Ok(made) => return Ok((Scratch { path }, made)),
                Err(error) if error.kind() == ErrorKind::AlreadyExists && number < 1000 => {
                    number += 1;
                }
                Err(error) => return Err(error),
            }
        }
    }
}

impl Drop for Scratch {
    fn drop(&mut self) {
        let _ = fs::remove_file(&self.path);
    }
}

/// Files without a name, as Linux has them.
#[cfg(all(
    target_os = "linux",
    any(
        target_arch = "x86",
        target_arch = "x86_64",
        target_arch = "aarch64",
        target_arch = "riscv64"
    )
))]
mod nameless {
    use super::Scratch;
    use std::ffi::{c_char, c_int, CString};
    use std::fs::{File, OpenOptions};
    use std::io::{self, ErrorKind};
    use std::os::fd::AsRawFd;
    use std::os::unix::ffi::OsStrExt;
    use std::os::unix::fs::OpenOptionsExt;
    use std::path::Path;

    /// `O_TMPFILE`, `O_DIRECTORY` included.
    const TEMPORARY: c_int =
        0o20_000_000 | if cfg!(target_arch = "aarch64") { 0o40_000 } else { 0o200_000 };
    const AT_FDCWD: c_int = -100;
    const AT_SYMLINK_FOLLOW: c_int = 0x400;

    extern "C" {
        fn linkat(
            old_folder: c_int,
            old_path: *const c_char,
            new_folder: c_int,
            new_path: *const c_char,
            flags: c_int,
        ) -> c_int;
    }

    /// Makes a file without a name; `None` where the filesystem has none.
    pub fn create(folder: &Path, mode: u32) -> Option<io::Result<File>> {
        let made = OpenOptions::new().write(true).custom_flags(TEMPORARY).mode(mode).open(folder);
        match made {
            // EOPNOTSUPP, EINVAL, EISDIR, ENOENT: how kernels and filesystems say so.
            Err(error) if matches!(error.raw_os_error(), Some(95 | 22 | 21 | 2)) => None,
            other => Some(other),
        }
    }

    /// Gives it one that is free; `None` where the system has no way to.
    pub fn name(file: &File, folder: &Path) -> io::Result<Option<Scratch>> {
        way(Scratch::at_free_name(folder, |path| link_to(file, path)).map(|(scratch, ())| scratch))
    }

    /// Gives it this name, if it is free; `false` where the system has no way to.
    pub fn link(file: &File, path: &Path) -> io::Result<bool> {
        way(link_to(file, path)).map(|linked| linked.is_some())
    }

    /// What was linked; `None` where the system has no way to: no /proc, or one that
    /// is forbidden.
    fn way<T>(linked: io::Result<T>) -> io::Result<Option<T>> {
        match linked {
            Ok(linked) => Ok(Some(linked)),
            Err(error) if error.kind() == ErrorKind::NotFound => Ok(None),
            Err(error) if error.kind() == ErrorKind::PermissionDenied => Ok(None),
            Err(error) => Err(error),
        }
    }

    /// Links the file to a name.
    fn link_to(file: &File, path: &Path) -> io::Result<()> {
        let old = CString::new(format!("/proc/self/fd/{}", file.as_raw_fd()))?;
        let new = CString::new(path.as_os_str().as_bytes())?;
        let flags = AT_SYMLINK_FOLLOW;
        // Safety: both are strings with a zero at their end, and outlive the call.
        match unsafe { linkat(AT_FDCWD, old.as_ptr(), AT_FDCWD, new.as_ptr(), flags) } {
            0 => Ok(()),
            _ => Err(io::Error::last_os_error()),
        }
    }
}

/// Elsewhere every file has a name.
#[cfg(not(all(
    target_os = "linux",
    any(
        target_arch = "x86",
        target_arch = "x86_64",
        target_arch = "aarch64",
        target_arch = "riscv64"
    )
)))]
mod nameless {
    use super::Scratch;
    use std::fs::File;
    use std::io;
    use std::path::Path;

    pub fn create(_: &Path, _: u32) -> Option<io::Result<File>> {
        None
    }

    pub fn name(_: &File, _: &Path) -> io::Result<Option<Scratch>> {
        Ok(None)
    }

    pub fn link(_: &File, _: &Path) -> io::Result<bool> {
        Ok(false)
    }
}
