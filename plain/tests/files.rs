//! Texts, files and folders of WIT, pushed as wit-parser's users push them.
use std::fs;
use std::path::{Path, PathBuf};
use wit_resolve_graph::*;

const MAIN: &str = "package my:home; interface i { use my:dep/d.{t}; f: func() -> t; } world w { import i; }\n";
const DEP: &str = "package my:dep; interface d { use my:deeper/e.{t}; }\n";

/// A folder with files, which is removed at the end.
struct Folder(PathBuf);

impl Folder {
    fn new(name: &str, files: &[(&str, &[u8])]) -> Folder {
        let home = std::env::temp_dir().join(format!("wit-resolve-graph-{}-{name}", std::process::id()));
        for (path, text) in files {
            let path = home.join(path);
            fs::create_dir_all(path.parent().expect("a folder")).expect("a folder");
            fs::write(path, text).expect("a file");
        }
        Folder(home)
    }

    fn home(name: &str) -> Folder {
        let deeper: &[u8] = b"package my:deeper; interface e { type t = u8; }\n";
        let files = [
            ("main.wit", MAIN.as_bytes()),
            ("note.txt", b"no WIT"),
            ("deps/dep.wit", DEP.as_bytes()),
            ("deps/deeper/x.wit", deeper),
            ("deps/deeper/deps/y.wit", b"no WIT: only the first `deps` is read"),
            ("deps/note.txt", b"no WIT"),
        ];
        Folder::new(name, &files)
    }

    fn path(&self) -> &Path {
        &self.0
    }
}

impl Drop for Folder {
    fn drop(&mut self) {
        let _ = fs::remove_dir_all(&self.0);
    }
}

fn imports(resolve: &Resolve, package: PackageId) -> Vec<String> {
    let world = resolve.select_world(&[package], None).expect("a world");
    let keys = resolve.worlds[world].imports.keys();
    keys.map(|key| resolve.name_world_key(key)).collect()
}

#[test]
fn a_text_is_pushed() -> Result<(), FileError> {
    let mut resolve = Resolve::new();
    let dep = resolve.push_str("deeper.wit", "package my:deeper; interface e { type t = u8; }")?;
    resolve.push_str(Path::new("dep.wit"), DEP)?;
    let main = resolve.push_str("main.wit", MAIN)?;
    assert_eq!((dep.index(), main.index()), (0, 2));
    assert_eq!(imports(&resolve, main), ["my:deeper/e", "my:dep/d", "my:home/i"]);
    resolve.assert_valid();
    Ok(())
}

#[test]
fn a_folder_is_pushed_with_its_dependencies() -> Result<(), FileError> {
    let folder = Folder::home("folder");
    let mut resolve = Resolve::new();
    let (main, sources) = resolve.push_dir(folder.path())?;
    assert_eq!(imports(&resolve, main), ["my:deeper/e", "my:dep/d", "my:home/i"]);
    let name = |path: &str| folder.path().join(path).to_str().expect("UTF-8").to_owned();
    let all: Vec<_> = sources.source_names().collect();
    assert_eq!(all, [name("main.wit"), name("deps/deeper/x.wit"), name("deps/dep.wit")]);
    let of_main: Vec<_> = sources.package_source_names(main).expect("a package").collect();
    assert_eq!(of_main, [name("main.wit")]);
    assert!(sources.package_source_names(PackageId::from_index(9)).is_none());
    let mut other = Resolve::new();
    let (by_path, _) = other.push_path(folder.path())?;
    assert_eq!(other.graph(), resolve.graph());
    assert_eq!(by_path, main);
    Ok(())
}

#[test]
fn a_file_is_pushed() -> Result<(), FileError> {
    let folder = Folder::home("file");
    let mut resolve = Resolve::new();
    resolve.push_file(folder.path().join("deps/deeper/x.wit"))?;
    let (dep, sources) = resolve.push_path(folder.path().join("deps/dep.wit"))?;
    assert_eq!(sources.source_names().count(), 1);
    assert_eq!(resolve.packages[dep].name.to_string(), "my:dep");
    Ok(())
}

#[test]
fn faults_are_told_with_their_places() {
    let folder = Folder::new("faults", &[("bytes.wit", b"\xff"), ("deps/x.wasm", b""), ("a.wit", b"package a:b;")]);
    let mut resolve = Resolve::new();
    let told = |error: FileError| (error.to_string(), error.refusal().map(ResolveError::number));
    let unread = told(resolve.push_file("nowhere.wit").expect_err("no file"));
    assert_eq!(unread, ("nowhere.wit: there is no such file or folder".to_owned(), None));
    let (bytes, _) = told(resolve.push_file(folder.path().join("bytes.wit")).expect_err("bytes"));
    assert!(bytes.ends_with("bytes.wit: it isn't UTF-8"));
    let (binary, _) = told(resolve.push_dir(folder.path().join(".")).expect_err("bytes"));
    assert!(binary.ends_with("bytes.wit: it isn't UTF-8"));
    let text = told(resolve.push_str("a.wit", "package a:b;\ninterface {}\n").expect_err("no name"));
    let wanted = "expected an identifier or string, found '{'\n     --> a.wit:2:11\n      |\n    2 | interface {}\n      |           ^";
    assert_eq!(text, (wanted.to_owned(), None));
    let (refused, number) = told(resolve.push_str("b.wit", "package a:b; world w { import x:y/z; }").expect_err("no x:y"));
    assert!(refused.starts_with("package 'x:y' not found. known packages:\n    a:b\n     --> b.wit:1:31\n"));
    assert_eq!(number, Some(1));
    assert!(resolve.packages.is_empty());
}

#[test]
fn groups_are_read_alone() -> Result<(), FileError> {
    let folder = Folder::home("groups");
    let group = UnresolvedPackageGroup::parse_dir(folder.path())?;
    assert_eq!(group.main.name.to_string(), "my:home");
    let group = UnresolvedPackageGroup::parse("x.wit", "package a:b; package a:c { }")?;
    assert_eq!(group.nested.len(), 1);
    Ok(())
}

#[test]
fn a_component_in_deps_is_refused() {
    let folder = Folder::new("component", &[("main.wit", b"package my:home;"), ("deps/x.wasm", b""), ("deps/note.txt", b"")]);
    let mut resolve = Resolve::new();
    let told = resolve.push_path(folder.path()).expect_err("a component").to_string();
    let path = folder.path().join("deps/x.wasm");
    assert_eq!(told, format!("{}: it is no WIT text: write it as a .wit file", path.display()));
    resolve.push_path(folder.path().join("main.wit")).expect("a package");
}
