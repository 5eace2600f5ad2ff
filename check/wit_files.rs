//! Prints what files of WIT say, each of which stands behind the number of its bytes and a newline.
#![allow(dead_code, unused_imports, unused_macros)]
mod made;
mod shim;

use made::wit_sources::Span;
use made::wit_text::syntax::*;
use made::wit_text::{Comments, ReadFault, read_file};
use std::io::{Read, Write};

thread_local! {
    static SOURCE: std::cell::RefCell<String> = const { std::cell::RefCell::new(String::new()) };
}

/// The text of a piece of the source.
fn text(piece: &Piece) -> String {
    SOURCE.with(|source| piece.text(&source.borrow()).to_string())
}

struct Dump<'t> {
    types: &'t [TypeNode],
    out: String,
}

fn at(span: Span) -> String {
    format!("{}-{}", span.start(), span.end())
}

fn named(name: &Piece) -> String {
    format!("{}@{}", text(name), at(name.span))
}

fn version(path: &PackagePath) -> String {
    path.version.map_or(String::new(), |it| format!("@{}", text(&it)))
}

fn package(path: &PackagePath) -> String {
    let end = path.version.map_or(path.name.span.end(), |it| it.span.end());
    let (namespace, name) = (text(&path.namespace), text(&path.name));
    format!("{namespace}:{name}{}@{}-{end}", version(path), path.namespace.span.start())
}

fn path_of(path: &Path) -> String {
    let name = named(&path.name);
    match &path.package {
        None => name,
        Some(it) => {
            let (first, second) = (it.namespace, it.name);
            let place = format!("{}-{}", first.span.start(), second.span.end());
            format!("{}:{}{}/{name} {place}", text(&first), text(&second), version(it))
        }
    }
}

fn docs(comments: &Option<Comments>) -> String {
    let docs = comments.and_then(|it| SOURCE.with(|source| it.docs(&source.borrow()).expect("memory")));
    docs.map_or(String::new(), |it| format!("|{it}"))
}

impl<'t> Dump<'t> {
    fn line(&mut self, text: String) {
        self.out.push_str(&text.replace('\n', "\\n"));
        self.out.push('\n');
    }

    fn gate(&mut self, gate: &Gate) {
        self.line(format!("gate {}", docs(&gate.docs)));
        for it in gate.attributes.iter() {
            let word = match it.kind {
                AttributeKind::Since => "since",
                AttributeKind::Unstable => "unstable",
                AttributeKind::Deprecated => "deprecated",
                AttributeKind::ExternalId => "external-id",
            };
            self.line(format!("@{word} {} {}", text(&it.value), at(it.span)));
        }
    }

    fn ty(&mut self, ty: TypeRange) {
        for node in &self.types[ty.first..=ty.index] {
            let part = |it: usize| format!("#{}", it - ty.first);
            let some = |it: &Option<usize>| it.map_or("_".to_string(), part);
            let each = |it: &[usize]| it.iter().map(|it| part(*it)).collect::<Vec<_>>().join(",");
            let (word, end) = match &node.kind {
                TypeNodeKind::Primitive(word) => (word.text().to_string(), "!".to_string()),
                TypeNodeKind::Named(name) => (text(name), String::new()),
                TypeNodeKind::Own(name) => ("own".to_string(), format!("<{}>", named(name))),
                TypeNodeKind::Borrow(name) => ("borrow".to_string(), format!("<{}>", named(name))),
                TypeNodeKind::List(it) => ("list".to_string(), format!("<{}>", part(*it))),
                TypeNodeKind::FixedLengthList(it, len) => ("list".to_string(), format!("<{},{len}>", part(*it))),
                TypeNodeKind::Map(key, value) => ("map".to_string(), format!("<{},{}>", part(*key), part(*value))),
                TypeNodeKind::Option(it) => ("option".to_string(), format!("<{}>", part(*it))),
                TypeNodeKind::Result_ { ok, err: None } => ("result".to_string(), format!("<{}>", ok.map_or(String::new(), part))),
                TypeNodeKind::Result_ { ok, err } => ("result".to_string(), format!("<{},{}>", some(ok), some(err))),
                TypeNodeKind::Tuple(parts) => ("tuple".to_string(), format!("<{}>", each(parts.as_slice()))),
                TypeNodeKind::Future(it) => ("future".to_string(), format!("<{}>", it.map_or(String::new(), part))),
                TypeNodeKind::Stream(it) => ("stream".to_string(), format!("<{}>", it.map_or(String::new(), part))),
            };
            self.out.push_str(&format!("  {word}@{}{end}\n", at(node.span)));
        }
    }

    fn member(&mut self, it: &Member) {
        self.line(format!("part {} {}", named(&it.name), docs(&it.docs)));
        if let Some(ty) = it.ty {
            self.ty(ty);
        }
    }

    fn members(&mut self, members: &[Member]) {
        for it in members {
            self.member(it);
        }
    }

    fn function(&mut self, name: &str, span: Span, it: &Signature) {
        self.line(format!("function {name}@{} {}", at(span), it.is_async));
        self.members(it.parameters.as_slice());
        if let Some(ty) = it.result {
            self.line("result".to_string());
            self.ty(ty);
        }
    }

    fn renamings(&mut self, names: &[Renaming]) {
        for it in names {
            self.line(format!("{} as {}", named(&it.name), named(&it.new)));
        }
    }

    fn entry(&mut self, word: &str, it: &Entry) {
        match it {
            Entry::Path(path) => self.line(format!("{word} {}", path_of(path))),
            Entry::Labelled(label, path) => {
                self.line(format!("{word} {} {}", named(label), path_of(path)));
            }
            Entry::Function(label, signature) => {
                self.line(format!("{word} {}", named(label)));
                self.function(&text(label), label.span, signature);
            }
            Entry::Interface(label, statements) => {
                self.line(format!("{word} {} interface", named(label)));
                self.interface(statements.as_slice());
                self.line("}".to_string());
            }
        }
    }

    fn using(&mut self, it: &UseNames) {
        self.line(format!("use {}", path_of(&it.path)));
        self.renamings(it.names.as_slice());
    }

    fn interface(&mut self, statements: &[InterfaceStatement]) {
        for it in statements {
            self.gate(&it.gate);
            match &it.kind {
                InterfaceStatementKind::Use(it) => self.using(it),
                InterfaceStatementKind::Define(it) => self.define(it),
                InterfaceStatementKind::Function(name, signature) => {
                    self.function(&text(name), name.span, signature);
                }
            }
        }
    }

    fn world(&mut self, statements: &[WorldStatement]) {
        for it in statements {
            self.gate(&it.gate);
            match &it.kind {
                WorldStatementKind::Use(it) => self.using(it),
                WorldStatementKind::Define(it) => self.define(it),
                WorldStatementKind::Import(it) => self.entry("import", it),
                WorldStatementKind::Export(it) => self.entry("export", it),
                WorldStatementKind::Include(it) => {
                    self.line(format!("include {}", path_of(&it.path)));
                    self.renamings(it.names.as_slice());
                }
            }
        }
    }

    fn define(&mut self, it: &Definition) {
        let word = match it.kind {
            DefinitionKind::Alias(_) => "type",
            DefinitionKind::Record(_) => "record",
            DefinitionKind::Variant(_) => "variant",
            DefinitionKind::Enum(_) => "enum",
            DefinitionKind::Flags(_) => "flags",
            DefinitionKind::Resource(_) => "resource",
        };
        self.line(format!("{word} {}", named(&it.name)));
        match &it.kind {
            DefinitionKind::Alias(ty) => self.ty(*ty),
            DefinitionKind::Record(members)
            | DefinitionKind::Variant(members)
            | DefinitionKind::Enum(members)
            | DefinitionKind::Flags(members) => self.members(members.as_slice()),
            DefinitionKind::Resource(functions) => {
                for function in functions.iter() {
                    self.gate(&function.gate);
                    let resource = text(&it.name);
                    let (name, span) = match function.name {
                        ResourceFunctionName::Constructor(span) => (format!("[constructor]{resource}"), span),
                        ResourceFunctionName::Method(name) => (format!("[method]{resource}.{}", text(&name)), name.span),
                        ResourceFunctionName::Static(name) => (format!("[static]{resource}.{}", text(&name)), name.span),
                    };
                    self.function(&name, span, &function.signature);
                }
            }
        }
    }

    fn items(&mut self, items: &[Item]) {
        for item in items {
            self.gate(&item.gate);
            match &item.kind {
                ItemKind::Interface(name, statements) => {
                    self.line(format!("interface {} {{", named(name)));
                    self.interface(statements.as_slice());
                    self.line("}".to_string());
                }
                ItemKind::World(name, statements) => {
                    self.line(format!("world {} {{", named(name)));
                    self.world(statements.as_slice());
                    self.line("}".to_string());
                }
                ItemKind::Use(it) => {
                    self.line(format!("use {} {} {}", at(it.span), path_of(&it.path), named(&it.name)));
                }
            }
        }
    }

    fn file(&mut self, file: &File) {
        if let Some(it) = &file.header {
            let place = it.docs.map_or("-".to_string(), |it| at(it.span));
            self.line(format!("header {} {place} {}", package(&it.name), docs(&it.docs)));
        }
        for it in file.packages.iter() {
            self.line(format!("package {} {}", package(&it.name), docs(&it.docs)));
            if let Some(inner) = it.inner.as_slice().first() {
                self.line(format!("inner {}", package(inner)));
            }
            self.items(it.items.as_slice());
            self.line("end".to_string());
        }
        self.items(file.items.as_slice());
    }
}

fn shown(text: &str) -> String {
    SOURCE.with(|source| *source.borrow_mut() = text.to_string());
    match read_file(text, 1000) {
        Ok(file) => {
            let mut dump = Dump {
                types: file.types.as_slice(),
                out: String::new(),
            };
            dump.file(&file);
            dump.out
        }
        Err(ReadFault::At(span, kind)) => format!("fault {} {kind}\n", at(span)),
        Err(ReadFault::OutOfMemory) => "out of memory\n".to_string(),
    }
}

fn main() {
    let mut input = std::vec::Vec::new();
    std::io::stdin().read_to_end(&mut input).unwrap();
    let (mut rest, mut out) = (&input[..], String::new());
    while let Some(at) = rest.iter().position(|it| *it == b'\n') {
        let len: usize = std::str::from_utf8(&rest[..at]).unwrap().parse().unwrap();
        let text = std::str::from_utf8(&rest[at + 1..at + 1 + len]).unwrap();
        out.push_str(&shown(text));
        out.push_str(".\n");
        rest = &rest[at + 1 + len..];
    }
    std::io::stdout().write_all(out.as_bytes()).unwrap();
}
