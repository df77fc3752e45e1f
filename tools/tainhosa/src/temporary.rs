//! A file that is written whole before it gets its name.
use crate::signals;
use std::fs::{self, File, OpenOptions, Permissions};
use std::io::{self, ErrorKind, Write};
use std::path::{Path, PathBuf};

/// A new file beside another, which goes away unless it gets that one's name.
pub struct Temporary(PathBuf);

fn folder(path: &Path) -> &Path {
    path.parent().filter(|p| !p.as_os_str().is_empty()).unwrap_or_else(|| Path::new("."))
}

impl Temporary {
    fn new(folder: &Path) -> io::Result<(Temporary, File)> {
        let mut number = 0;
        loop {
            let path = folder.join(format!(".tainhosa-{}-{number}", std::process::id()));
            match OpenOptions::new().write(true).create_new(true).open(&path) {
                Ok(file) => {
                    signals::remove_if_interrupted(Some(&path));
                    return Ok((Temporary(path), file));
                }
                Err(error) if error.kind() == ErrorKind::AlreadyExists && number < 1000 => number += 1,
                Err(error) => return Err(error),
            }
        }
    }

    /// These bytes, written and synchronised in the folder of that file, with these permissions if any are given.
    pub fn beside(path: &Path, bytes: &[u8], permissions: Option<Permissions>) -> io::Result<Temporary> {
        let (temporary, mut file) = Temporary::new(folder(path))?;
        if let Some(permissions) = permissions {
            file.set_permissions(permissions)?;
        }
        file.write_all(bytes)?;
        file.sync_all()?;
        Ok(temporary)
    }

    /// Gives it this name, and what has the name goes away.
    pub fn take_place_of(&self, path: &Path) -> io::Result<()> {
        fs::rename(&self.0, path)?;
        keep_name(path);
        Ok(())
    }

    /// Gives it this name. What has the name already stays, and that is an error.
    pub fn take_free_name(&self, path: &Path) -> io::Result<()> {
        match fs::hard_link(&self.0, path) {
            Err(error) if error.kind() != ErrorKind::AlreadyExists => {
                // A file system without links: the name is claimed by an empty file, which nobody else can have made.
                OpenOptions::new().write(true).create_new(true).open(path)?;
                fs::rename(&self.0, path).map_err(|error| {
                    let _ = fs::remove_file(path);
                    error
                })
            }
            done => done,
        }?;
        keep_name(path);
        Ok(())
    }
}

/// So that the name lasts too; a folder that can't be synchronised is no reason to call the file unwritten.
fn keep_name(path: &Path) {
    let _ = File::open(folder(path)).and_then(|folder| folder.sync_all());
}

impl Drop for Temporary {
    fn drop(&mut self) {
        // Where it was renamed there is nothing left to remove.
        let _ = fs::remove_file(&self.0);
        signals::remove_if_interrupted(None);
    }
}
