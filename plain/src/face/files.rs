//! Files and folders of WIT, as wit-parser pushes them.

use super::paths::{is_folder, read_deps, read_file, read_folder, text_of};
use super::resolve::answered;
use crate::made::wit_data::{MapFault, PackageId, SourceMap, UnresolvedPackageGroup};
use crate::made::wit_graph_data::ResolveError;
use crate::made::wit_groups::{GroupFault, read_group};
use crate::{Resolve, values::Items};
use std::collections::{BTreeMap, HashSet};
use std::error::Error;
use std::fmt;
use std::path::Path;

/// Why files aren't read or pushed.
///
/// What isn't WIT, and a refusal, are shown with FILE:LINE:COLUMN and the line.
#[derive(Debug)]
pub struct FileError {
    text: String,
    refusal: Option<ResolveError>,
}

impl FileError {
    /// The refusal, where the files are read and their packages are refused.
    pub fn refusal(&self) -> Option<&ResolveError> {
        self.refusal.as_ref()
    }

    fn of(text: impl fmt::Display) -> FileError {
        let (text, refusal) = (text.to_string(), None);
        FileError { text, refusal }
    }

    /// What is wrong with a path.
    pub(super) fn at(path: &Path, what: impl fmt::Display) -> FileError {
        FileError::of(format_args!("{}: {what}", path.display()))
    }
}

impl fmt::Display for FileError {
    fn fmt(&self, f: &mut fmt::Formatter<'_>) -> fmt::Result {
        f.write_str(&self.text)
    }
}

impl Error for FileError {}

impl From<MapFault> for FileError {
    fn from(fault: MapFault) -> FileError {
        FileError::of(fault)
    }
}

impl From<GroupFault> for FileError {
    fn from(fault: GroupFault) -> FileError {
        FileError::of(answered(fault.try_render()).as_str())
    }
}

/// The names of the files that packages come from.
///
/// Source: `PackageSources` of wit-parser 0.263.0.
#[derive(Clone, Debug)]
pub struct PackageSources {
    /// The files of each group.
    sources: Vec<Vec<String>>,
    /// The group of each package.
    places: BTreeMap<PackageId, usize>,
}

impl PackageSources {
    /// The names of all files, each once.
    pub fn source_names(&self) -> impl Iterator<Item = &str> {
        let mut seen = HashSet::new();
        let names = self.sources.iter().flatten().map(String::as_str);
        names.filter(move |name| seen.insert(*name))
    }

    /// The names of a package's files. None where no package of that id came.
    pub fn package_source_names(&self, id: PackageId) -> Option<impl Iterator<Item = &str>> {
        let files = &self.sources[*self.places.get(&id)?];
        Some(files.iter().map(String::as_str))
    }
}

impl UnresolvedPackageGroup {
    /// The packages of a text of WIT, with the name that its file has in messages.
    pub fn parse(path: impl AsRef<Path>, contents: &str) -> Result<UnresolvedPackageGroup, FileError> {
        let mut map = SourceMap::default();
        map.push_str(text_of(path.as_ref())?, contents)?;
        Ok(read_group(map)?)
    }

    /// The packages of the files right in a folder that end with `.wit`.
    pub fn parse_dir(path: impl AsRef<Path>) -> Result<UnresolvedPackageGroup, FileError> {
        Ok(read_group(read_folder(path.as_ref())?)?)
    }

    fn parse_file(path: &Path) -> Result<UnresolvedPackageGroup, FileError> {
        Ok(read_group(read_file(path)?)?)
    }

    /// The packages of each thing in the folder `deps` of a folder.
    fn parse_deps(path: &Path) -> Result<Vec<UnresolvedPackageGroup>, FileError> {
        read_deps(path)?.into_iter().map(|map| Ok(read_group(map)?)).collect()
    }
}

/// What reads WIT and adds its packages. Of what is refused or can't be read, [`FileError`] tells the place.
impl Resolve {
    /// Adds the packages of a text, as [`push_group`](Resolve::push_group); the path is the name that it has in messages.
    pub fn push_str(&mut self, path: impl AsRef<Path>, contents: &str) -> Result<PackageId, FileError> {
        self.push_read(UnresolvedPackageGroup::parse(path, contents)?, Vec::new())
    }

    /// Adds the packages of a `.wit` file.
    pub fn push_file(&mut self, path: impl AsRef<Path>) -> Result<PackageId, FileError> {
        self.push_read(UnresolvedPackageGroup::parse_file(path.as_ref())?, Vec::new())
    }

    /// Adds the package of a folder, of all its `.wit` files, and its dependencies: for each thing in the folder `deps` the
    /// package of that folder or `.wit` file. Packages are pushed with those that they depend on first.
    ///
    /// `.wasm` and `.wat` files in `deps`, which wit-parser reads, are refused; other files are left out.
    pub fn push_dir(&mut self, path: impl AsRef<Path>) -> Result<(PackageId, PackageSources), FileError> {
        let main = UnresolvedPackageGroup::parse_dir(path.as_ref())?;
        let deps = UnresolvedPackageGroup::parse_deps(path.as_ref())?;
        self.push_with_sources(main, deps)
    }

    /// Adds what a path has: a folder as [`push_dir`](Resolve::push_dir), all else as [`push_file`](Resolve::push_file).
    pub fn push_path(&mut self, path: impl AsRef<Path>) -> Result<(PackageId, PackageSources), FileError> {
        let path = path.as_ref();
        if is_folder(path)? {
            return self.push_dir(path);
        }
        self.push_with_sources(UnresolvedPackageGroup::parse_file(path)?, Vec::new())
    }

    fn push_read(
        &mut self,
        main: UnresolvedPackageGroup,
        deps: Vec<UnresolvedPackageGroup>,
    ) -> Result<PackageId, FileError> {
        self.inner.push_groups(main, Items::from(deps)).map_err(|error| FileError {
            text: error.render(self.inner.source_map()),
            refusal: Some(error),
        })
    }

    fn push_with_sources(
        &mut self,
        main: UnresolvedPackageGroup,
        deps: Vec<UnresolvedPackageGroup>,
    ) -> Result<(PackageId, PackageSources), FileError> {
        let groups = || [&main].into_iter().chain(&deps);
        let sources = groups().map(file_names).collect();
        let names: Vec<Vec<_>> = groups().map(package_names).collect();
        let id = self.push_read(main, deps)?;
        let placed = names.into_iter().enumerate().flat_map(|(place, names)| names.into_iter().map(move |it| (it, place)));
        let places = placed.map(|(name, place)| (self.package_names[&name], place)).collect();
        Ok((id, PackageSources { sources, places }))
    }
}

fn file_names(group: &UnresolvedPackageGroup) -> Vec<String> {
    group.source_map.source_names().map(str::to_owned).collect()
}

fn package_names(group: &UnresolvedPackageGroup) -> Vec<crate::PackageName> {
    let packages = group.nested.as_slice().iter().chain([&group.main]);
    packages.map(|package| package.name.clone()).collect()
}
