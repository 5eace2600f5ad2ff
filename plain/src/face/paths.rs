//! The files of a path: of a `.wit` file, or of a folder.

use super::files::FileError;
use crate::made::wit_data::SourceMap;
use std::path::{Path, PathBuf};
use std::{fs, io};

pub(super) fn is_folder(path: &Path) -> Result<bool, FileError> {
    match fs::metadata(path) {
        Ok(metadata) => Ok(metadata.is_dir()),
        Err(error) => Err(of_error(path, &error)),
    }
}

/// A file alone.
pub(super) fn read_file(path: &Path) -> Result<SourceMap, FileError> {
    let mut map = SourceMap::default();
    add_file(&mut map, path)?;
    Ok(map)
}

/// The files right in a folder that end with `.wit`, in the order of their names.
///
/// Source: `parse_dir` of wit-parser 0.263.0.
pub(super) fn read_folder(folder: &Path) -> Result<SourceMap, FileError> {
    let mut map = SourceMap::default();
    for path in paths_in(folder)? {
        if ends_with(&path, ".wit") && !is_folder(&path)? {
            add_file(&mut map, &path)?;
        }
    }
    Ok(map)
}

/// The files of each thing in the folder `deps` of a folder, in the order of their names: of a folder those right in it, of
/// a file that ends with `.wit` this alone. Other files are left out, but `.wasm` and `.wat`, which wit-parser reads, are
/// refused. A folder without `deps` has none.
///
/// Source: `parse_deps_dir` of wit-parser 0.263.0.
pub(super) fn read_deps(folder: &Path) -> Result<Vec<SourceMap>, FileError> {
    let folder = folder.join("deps");
    let mut deps = Vec::new();
    if !folder.try_exists().map_err(|error| of_error(&folder, &error))? {
        return Ok(deps);
    }
    for path in paths_in(&folder)? {
        if is_folder(&path)? {
            deps.push(read_folder(&path)?);
        } else if ends_with(&path, ".wit") {
            deps.push(read_file(&path)?);
        } else if ends_with(&path, ".wasm") || ends_with(&path, ".wat") {
            return Err(FileError::at(&path, "it is no WIT text: write it as a .wit file"));
        }
    }
    Ok(deps)
}

/// Whether the name of a file has this end; `.wit` is a name, too.
fn ends_with(path: &Path, end: &str) -> bool {
    path.as_os_str().as_encoded_bytes().ends_with(end.as_bytes())
}

/// The paths of what is in a folder, in the order of names.
fn paths_in(folder: &Path) -> Result<Vec<PathBuf>, FileError> {
    let paths = || -> io::Result<Vec<_>> { fs::read_dir(folder)?.map(|entry| Ok(entry?.path())).collect() };
    let mut paths = paths().map_err(|error| of_error(folder, &error))?;
    paths.sort();
    Ok(paths)
}

fn add_file(map: &mut SourceMap, path: &Path) -> Result<(), FileError> {
    let bytes = fs::read(path).map_err(|error| of_error(path, &error))?;
    let text = String::from_utf8(bytes).map_err(|_| FileError::at(path, "it isn't UTF-8"))?;
    map.push_str(text_of(path)?, &text).map_err(|fault| FileError::at(path, fault))?;
    Ok(())
}

/// The name of a file in messages.
pub(super) fn text_of(path: &Path) -> Result<&str, FileError> {
    path.to_str().ok_or_else(|| FileError::at(path, "its name isn't UTF-8"))
}

/// What the system tells of a path.
fn of_error(path: &Path, error: &io::Error) -> FileError {
    FileError::at(path, match error.kind() {
        io::ErrorKind::NotFound => "there is no such file or folder",
        io::ErrorKind::PermissionDenied => "reading it is not allowed",
        io::ErrorKind::OutOfMemory => "out of memory",
        _ => "it can't be read",
    })
}
