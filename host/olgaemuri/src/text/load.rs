//! Sessions from files, in text or in bytes.

use super::fault::TextError;
use super::session::SessionText;
use crate::container::{BytesError, MAGIC};
use crate::session::Session;
use std::error::Error;
use std::path::{Path, PathBuf};
use std::{fmt, fs, io};

/// Where a text comes from: what it is called in reports, and the folder of the files of thresholds that it names.
#[derive(Clone, Debug, Default, PartialEq, Eq)]
pub struct Source {
    pub(crate) name: String,
    pub(crate) folder: Option<PathBuf>,
}

impl Source {
    /// A text that is called so and may name no files.
    pub fn named(name: impl Into<String>) -> Self {
        Self {
            name: name.into(),
            folder: None,
        }
    }

    /// The same, with files looked for in this folder.
    #[must_use]
    pub fn in_folder(mut self, folder: impl Into<PathBuf>) -> Self {
        self.folder = Some(folder.into());
        self
    }

    /// A file: called by its path, with other files looked for beside it.
    pub fn file(path: impl AsRef<Path>) -> Self {
        let path = path.as_ref();
        let folder = path.parent().unwrap_or(Path::new(""));
        Self::named(path.to_string_lossy()).in_folder(folder)
    }
}

/// Why a session could not be loaded.
#[derive(Debug)]
#[non_exhaustive]
pub enum LoadError {
    /// The file that cannot be read, and why.
    Read(PathBuf, io::Error),
    /// The text has bad lines.
    Text(TextError),
    /// What is called so is no session in bytes.
    Bytes(String, BytesError),
}

impl fmt::Display for LoadError {
    fn fmt(&self, f: &mut fmt::Formatter) -> fmt::Result {
        match self {
            Self::Read(path, error) => write!(f, "cannot read {}: {error}", path.display()),
            Self::Text(error) => error.fmt(f),
            Self::Bytes(name, error) => write!(f, "{name}: {error}"),
        }
    }
}

impl Error for LoadError {
    fn source(&self) -> Option<&(dyn Error + 'static)> {
        match self {
            Self::Read(_, error) => Some(error),
            Self::Text(error) => Some(error),
            Self::Bytes(_, error) => Some(error),
        }
    }
}

impl SessionText {
    /// The session in a file, in text or in bytes, whichever it begins like.
    ///
    /// # Errors
    ///
    /// The file cannot be read, or is no session.
    pub fn open(path: impl AsRef<Path>) -> Result<Self, LoadError> {
        let path = path.as_ref();
        let bytes = fs::read(path).map_err(|error| LoadError::Read(path.to_path_buf(), error))?;
        Self::load(&bytes, &Source::file(path))
    }

    /// The session with these bytes, as [`SessionText::open`] reads them from a file.
    ///
    /// # Errors
    ///
    /// The bytes are no session.
    pub fn load(bytes: &[u8], source: &Source) -> Result<Self, LoadError> {
        if bytes.starts_with(MAGIC) {
            let session = Session::from_bytes(bytes);
            let session = session.map_err(|error| LoadError::Bytes(source.name.clone(), error))?;
            return Ok(Self::from(&session));
        }
        Self::parse(bytes, source).map_err(LoadError::Text)
    }
}
