//! The folder that a case runs in.

use std::collections::BTreeMap;
use std::ffi::OsString;
use std::fs;
use std::io;
use std::os::unix::fs::{symlink, PermissionsExt};
use std::path::{Path, PathBuf};

/// What a name in the folder stands for.
#[derive(Clone, Debug, PartialEq, Eq)]
pub enum Thing {
    File {
        bytes: Vec<u8>,
        /// The permissions; those of any new file if not given.
        mode: Option<u32>,
    },
    Link {
        to: String,
    },
    /// One more name of a file that is there.
    Name {
        of: String,
    },
    Folder,
}

impl Thing {
    pub fn file(bytes: impl Into<Vec<u8>>) -> Self {
        Thing::File { bytes: bytes.into(), mode: None }
    }

    pub fn mode(&self) -> Option<u32> {
        match self {
            Thing::File { mode, .. } => *mode,
            _ => None,
        }
    }
}

pub type Things = BTreeMap<OsString, Thing>;

/// A folder of its own for each case; it goes when the value does, unless it is kept.
pub struct Folder {
    path: PathBuf,
    /// The permissions of a new file here.
    usual_mode: u32,
    kept: bool,
}

impl Folder {
    pub fn new(path: PathBuf) -> io::Result<Self> {
        if path.exists() {
            fs::remove_dir_all(&path)?;
        }
        fs::create_dir_all(&path)?;
        let probe = path.join("probe");
        fs::write(&probe, b"")?;
        let usual_mode = mode(&probe)?;
        fs::remove_file(&probe)?;
        Ok(Folder { path, usual_mode, kept: false })
    }

    pub fn path(&self) -> &Path {
        &self.path
    }

    pub fn keep(&mut self) {
        self.kept = true;
    }

    pub fn put(&self, name: impl AsRef<Path>, thing: &Thing) -> io::Result<()> {
        let path = self.path.join(name);
        match thing {
            Thing::File { bytes, mode } => {
                fs::write(&path, bytes)?;
                match mode {
                    Some(mode) => fs::set_permissions(&path, fs::Permissions::from_mode(*mode)),
                    None => Ok(()),
                }
            }
            Thing::Link { to } => symlink(to, &path),
            Thing::Name { of } => fs::hard_link(self.path.join(of), &path),
            Thing::Folder => fs::create_dir(&path),
        }
    }

    /// Everything in the folder and in those it has. Permissions are given where they are not those of any new file.
    pub fn things(&self) -> io::Result<Things> {
        let mut things = Things::new();
        let mut folders = vec![PathBuf::new()];
        while let Some(folder) = folders.pop() {
            for entry in fs::read_dir(self.path.join(&folder))? {
                let name = folder.join(entry?.file_name());
                let thing = self.thing(&self.path.join(&name))?;
                if thing == Thing::Folder {
                    folders.push(name.clone());
                }
                things.insert(name.into_os_string(), thing);
            }
        }
        Ok(things)
    }

    fn thing(&self, path: &Path) -> io::Result<Thing> {
        let kind = fs::symlink_metadata(path)?.file_type();
        if kind.is_symlink() {
            return Ok(Thing::Link { to: fs::read_link(path)?.to_string_lossy().into_owned() });
        }
        if kind.is_dir() {
            return Ok(Thing::Folder);
        }
        let mode = Some(mode(path)?).filter(|&mode| mode != self.usual_mode);
        Ok(Thing::File { bytes: fs::read(path)?, mode })
    }
}

fn mode(path: &Path) -> io::Result<u32> {
    Ok(fs::metadata(path)?.permissions().mode() & 0o7777)
}

impl Drop for Folder {
    fn drop(&mut self) {
        if !self.kept {
            let _ = fs::remove_dir_all(&self.path);
        }
    }
}
