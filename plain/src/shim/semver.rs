//! Versions, over the crate `semver`.
use crate::shim::alloc::AllocError;
use std::fmt;

/// The crate's error. (Want of memory is none of its kinds: it aborts.)
#[derive(Debug)]
pub struct Error(Option<::semver::Error>);

impl PartialEq for Error {
    fn eq(&self, other: &Error) -> bool {
        match (&self.0, &other.0) {
            (None, None) => true,
            (Some(one), Some(other)) => one.to_string() == other.to_string(),
            _ => false,
        }
    }
}

impl From<AllocError> for Error {
    fn from(_: AllocError) -> Error {
        Error(None)
    }
}

impl fmt::Display for Error {
    fn fmt(&self, f: &mut fmt::Formatter<'_>) -> fmt::Result {
        match &self.0 {
            Some(error) => error.fmt(f),
            None => f.write_str("out of memory"),
        }
    }
}

impl std::error::Error for Error {}

macro_rules! identifier {
    ($name:ident) => {
        #[derive(PartialEq, Eq, PartialOrd, Ord, Hash)]
        pub struct $name(::semver::$name);

        impl $name {
            pub fn empty() -> $name {
                $name(::semver::$name::EMPTY)
            }

            pub fn new(text: &str) -> Result<$name, Error> {
                match ::semver::$name::new(text) {
                    Ok(inner) => Ok($name(inner)),
                    Err(error) => Err(Error(Some(error))),
                }
            }

            pub fn as_str(&self) -> &str {
                self.0.as_str()
            }

            pub fn is_empty(&self) -> bool {
                self.0.is_empty()
            }

            pub fn clone(&self) -> Result<$name, AllocError> {
                Ok($name(self.0.clone()))
            }
        }

        impl fmt::Debug for $name {
            fn fmt(&self, f: &mut fmt::Formatter<'_>) -> fmt::Result {
                self.0.fmt(f)
            }
        }
    };
}

identifier!(Prerelease);
identifier!(BuildMetadata);

#[derive(PartialEq, Eq, PartialOrd, Ord, Hash)]
pub struct Version {
    pub major: u64,
    pub minor: u64,
    pub patch: u64,
    pub pre: Prerelease,
    pub build: BuildMetadata,
}

impl Version {
    pub fn new(major: u64, minor: u64, patch: u64) -> Version {
        Version {
            major,
            minor,
            patch,
            pre: Prerelease::empty(),
            build: BuildMetadata::empty(),
        }
    }

    pub fn parse(text: &str) -> Result<Version, Error> {
        match ::semver::Version::parse(text) {
            Ok(version) => Ok(Version::from(version)),
            Err(error) => Err(Error(Some(error))),
        }
    }

    pub fn clone(&self) -> Result<Version, AllocError> {
        Ok(Version {
            major: self.major,
            minor: self.minor,
            patch: self.patch,
            pre: self.pre.clone()?,
            build: self.build.clone()?,
        })
    }
}

impl From<::semver::Version> for Version {
    fn from(version: ::semver::Version) -> Version {
        Version {
            major: version.major,
            minor: version.minor,
            patch: version.patch,
            pre: Prerelease(version.pre),
            build: BuildMetadata(version.build),
        }
    }
}

impl fmt::Display for Version {
    fn fmt(&self, f: &mut fmt::Formatter<'_>) -> fmt::Result {
        write!(f, "{}.{}.{}", self.major, self.minor, self.patch)?;
        if !self.pre.is_empty() {
            write!(f, "-{}", self.pre.as_str())?;
        }
        if !self.build.is_empty() {
            write!(f, "+{}", self.build.as_str())?;
        }
        Ok(())
    }
}

impl fmt::Debug for Version {
    fn fmt(&self, f: &mut fmt::Formatter<'_>) -> fmt::Result {
        let mut parts = f.debug_struct("Version");
        parts.field("major", &self.major).field("minor", &self.minor).field("patch", &self.patch);
        if !self.pre.is_empty() {
            parts.field("pre", &self.pre);
        }
        if !self.build.is_empty() {
            parts.field("build", &self.build);
        }
        parts.finish()
    }
}
