//! Tests of the shim, by what Rattle's standard library says of its own.
use crate::shim::indexmap::IndexMap;
use crate::shim::json::{Error, MAX_DEPTH, Reader, Scratch, Token, Value, Writer};
use crate::shim::semver::{BuildMetadata, Version};
use crate::shim::{String, TryToLowercase, Vec, env, semver};

struct Place<S> {
    index: usize,
    sort: std::marker::PhantomData<S>,
}

crate::shim::derive_index!(Place);

fn place(index: usize) -> Place<()> {
    Place { index, sort: std::marker::PhantomData }
}

/// A list with an item inserted before its last one.
#[test]
fn lists_keep_their_order() {
    let mut list = Vec::from_array(['a', 'c']).expect("memory");
    list.insert(1, 'b').expect("memory");
    assert_eq!(list.as_slice(), ['a', 'b', 'c']);
    assert_eq!(list.remove(0), 'a');
    assert_eq!(list.as_slice(), ['b', 'c']);
}

#[test]
fn maps_keep_their_order() {
    let mut map = IndexMap::new();
    for key in 0..4 {
        map.insert(key, key * 10).expect("memory");
    }
    assert_eq!(map.shift_remove_index(1), Some((1, 10)));
    let keys: std::vec::Vec<_> = map.iter().map(|pair| *pair.0).collect();
    assert_eq!(keys, [0, 2, 3]);
}

#[test]
fn texts_become_small() {
    let text = "Ab-É1".try_to_ascii_lowercase().expect("memory");
    assert_eq!(text.as_str(), "ab-É1");
}

/// An id is shown by its number, and with what it has beside that left out.
#[test]
fn ids_are_their_numbers() {
    assert!(place(1) < place(2));
    assert!(place(2) == place(2));
    assert_eq!(format!("{:?}", place(3)), "Place { index: 3, .. }");
}

#[test]
fn versions_are_shown_whole() {
    let version = Version::parse("1.2.3-rc.1+b.2").expect("a version");
    assert_eq!(format!("{version}"), "1.2.3-rc.1+b.2");
    let shorter = Version { build: BuildMetadata::empty(), ..version };
    assert_eq!(format!("{shorter}"), "1.2.3-rc.1");
    assert!(Version::parse("1.2") != Err(semver::Error::from(crate::shim::AllocError)));
}

#[test]
fn arguments_are_seen() {
    let mut buffer = [0; 4096];
    assert!(env::arg(0, &mut buffer).is_ok_and(|length| length > 0));
    assert_eq!(env::arg(0, &mut []), Err(env::FillError::TooLong));
    assert_eq!(env::arg(10_000, &mut []), Err(env::FillError::NotPresent));
}

/// What a text is as a value, shown; `Err` with the place where it isn't one.
fn shown(text: &str) -> Result<std::string::String, usize> {
    let mut scratch = Scratch::new();
    if let Ok(value) = Value::parse(text, &mut scratch) {
        return Ok(format!("{value:?}"));
    }
    let mut scratch = Scratch::new();
    let mut reader = Reader::new(text, &mut scratch).expect("memory");
    let _ = reader.skip_value(MAX_DEPTH);
    Err(reader.offset())
}

#[test]
fn values_are_read() {
    assert_eq!(shown(" [ 1 , -0.5e+2,true,null ] "), Ok("Array([Number(\"1\"), Number(\"-0.5e+2\"), Bool(true), Null])".into()));
    assert_eq!(shown("{\"a\":0,\"a\":[]}"), Ok("Object([(\"a\", Number(\"0\")), (\"a\", Array([]))])".into()));
    assert_eq!(shown(r#""\u0041\n\/\ud83d\ude00é""#), Ok(format!("String({:?})", "A\n/\u{1f600}é")));
}

#[test]
fn faults_have_their_place() {
    let faults = [
        ("", 0),
        ("01", 0),
        ("-", 0),
        ("1.", 0),
        ("[1,]", 3),
        ("[,1]", 1),
        ("{\"a\",1}", 5),
        // the bracket is a token, which is no value
        ("{\"a\":}", 6),
        ("1 2", 2),
        ("\"\\ud83d\"", 0),
        ("\"\\ude00\"", 0),
        ("\"a\nb\"", 0),
        ("\"a", 0),
    ];
    for (text, offset) in faults {
        assert_eq!(shown(text), Err(offset), "{text}");
    }
}

/// Lists in lists, so many.
fn nested(depth: usize) -> std::string::String {
    format!("{}{}", "[".repeat(depth), "]".repeat(depth))
}

#[test]
fn nesting_has_an_end() {
    let mut scratch = Scratch::new();
    assert!(Value::parse(&nested(128), &mut scratch).is_ok());
    let mut scratch = Scratch::new();
    assert_eq!(Value::parse(&nested(129), &mut scratch).err(), Some(Error::Invalid));
}

/// After the one bad token no token follows.
#[test]
fn a_reader_stops() {
    let mut scratch = Scratch::new();
    let mut reader = Reader::new("[1,:", &mut scratch).expect("memory");
    assert!(matches!(reader.next(), Some(Token::BeginArray)));
    assert!(matches!(reader.next(), Some(Token::Number("1"))));
    assert!(matches!(reader.next(), Some(Token::Bad)));
    assert!(reader.next().is_none());
}

/// The last of two members of one name is found.
#[test]
fn members_are_found() {
    let mut scratch = Scratch::new();
    let value = Value::parse("{\"a\":\"x\",\"b\":1,\"a\":\"y\"}", &mut scratch).expect("a value");
    assert_eq!(value.get("a").and_then(Value::as_str), Some("y"));
    assert_eq!(value.get("b").and_then(Value::as_number), Some("1"));
    assert!(value.get("c").is_none());
}

#[test]
fn values_are_written() {
    let mut writer = Writer::new(Vec::new());
    writer.begin_object().expect("memory");
    writer.key("a\"\\").expect("memory");
    writer.begin_array().expect("memory");
    writer.u64(u64::MAX).expect("memory");
    writer.string("\u{8}\u{c}\n\r\t\u{0}\u{1f}\u{7f}é/").expect("memory");
    writer.boolean(false).expect("memory");
    writer.null().expect("memory");
    writer.end_array().expect("memory");
    writer.end_object().expect("memory");
    let text = String::from_utf8(writer.into_inner()).expect("a text");
    let wanted = "{\"a\\\"\\\\\":[18446744073709551615,\"\\b\\f\\n\\r\\t\\u0000\\u001f\u{7f}é/\",false,null]}";
    assert_eq!(text.as_str(), wanted);
}
