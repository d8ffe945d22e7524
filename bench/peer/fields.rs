//! The fields of a line, borrowed from its bytes. A line that isn't plain is read into a tree.
use crate::cursor::Cursor;
use crate::json::{Part, Tape, Value};
use crate::message::Fault;

/// A key's value.
#[derive(Default)]
pub enum Field<T> {
    #[default]
    Missing,
    Right(T),
    /// A value of another type.
    Wrong,
}

impl<T> Field<T> {
    /// The value, otherwise the fault of this key.
    pub fn value(self, key: &'static str) -> Result<T, Fault> {
        match self {
            Field::Missing => Err(Fault("Missing ", key)),
            Field::Right(value) => Ok(value),
            Field::Wrong => Err(Fault("BadField ", key)),
        }
    }
}

#[derive(Default)]
pub struct Line<'a> {
    pub station: Field<&'a str>,
    pub ask: Field<&'a str>,
    pub n: Field<u64>,
    pub message: Field<Members<'a>>,
}

/// The fields of a message, whatever its kind.
#[derive(Default)]
pub struct Members<'a> {
    pub kind: Field<&'a str>,
    pub thing: Field<&'a str>,
    pub container: Field<&'a str>,
    pub place: Field<&'a str>,
    pub day: Field<&'a str>,
    pub loan: Field<&'a str>,
    pub partner: Field<&'a str>,
    pub objects: Field<Vec<&'a str>>,
    pub first: Field<&'a str>,
    pub last: Field<&'a str>,
    pub by: Field<&'a str>,
}

/// The fields of a line, or None if it isn't an object of JSON.
pub fn read<'a>(tape: &'a mut Tape, line: &'a [u8]) -> Option<Line<'a>> {
    if let Some(fields) = plain_line(line) {
        return Some(fields);
    }
    match tape.read(line)? {
        Value::Object(part) => Some(line_in(part)),
        _ => None,
    }
}

/// Whether a line has only printable bytes of ASCII, and no escapes.
fn is_plain(line: &[u8]) -> bool {
    // without branches, so that the compiler takes many bytes together
    let is_right = |byte| (b' '..=b'~').contains(&byte) & (byte != b'\\');
    line.iter().fold(true, |all, &byte| all & is_right(byte))
}

/// The fields of a plain line. Otherwise None: a key is none of these, a value has another type or
/// is `0`, `[]` or `{}`, the line has other bytes, or it isn't JSON.
fn plain_line(line: &[u8]) -> Option<Line<'_>> {
    if !is_plain(line) {
        return None;
    }
    let (mut cursor, mut fields) = (Cursor::new(line)?, Line::default());
    cursor.expect(b'{')?;
    loop {
        match key(&mut cursor)? {
            "station" => fields.station = Field::Right(text(&mut cursor)?),
            "ask" => fields.ask = Field::Right(text(&mut cursor)?),
            "n" => fields.n = Field::Right(whole(&mut cursor)?),
            "message" => fields.message = Field::Right(members(&mut cursor)?),
            _ => return None,
        }
        if cursor.takes(b'}') {
            cursor.end()?;
            return Some(fields);
        }
        cursor.expect(b',')?;
    }
}

fn members<'a>(cursor: &mut Cursor<'a>) -> Option<Members<'a>> {
    let mut fields = Members::default();
    cursor.expect(b'{')?;
    loop {
        match key(cursor)? {
            "kind" => fields.kind = Field::Right(text(cursor)?),
            "thing" => fields.thing = Field::Right(text(cursor)?),
            "container" => fields.container = Field::Right(text(cursor)?),
            "place" => fields.place = Field::Right(text(cursor)?),
            "day" => fields.day = Field::Right(text(cursor)?),
            "loan" => fields.loan = Field::Right(text(cursor)?),
            "partner" => fields.partner = Field::Right(text(cursor)?),
            "objects" => fields.objects = Field::Right(texts(cursor)?),
            "first" => fields.first = Field::Right(text(cursor)?),
            "last" => fields.last = Field::Right(text(cursor)?),
            "by" => fields.by = Field::Right(text(cursor)?),
            _ => return None,
        }
        if cursor.takes(b'}') {
            return Some(fields);
        }
        cursor.expect(b',')?;
    }
}

fn key<'a>(cursor: &mut Cursor<'a>) -> Option<&'a str> {
    let key = text(cursor)?;
    cursor.expect(b':')?;
    Some(key)
}

/// Takes a text, which the next quote ends: a plain line has no escapes.
fn text<'a>(cursor: &mut Cursor<'a>) -> Option<&'a str> {
    cursor.expect(b'"')?;
    let rest = &cursor.line[cursor.at..];
    let length = rest.bytes().position(|byte| byte == b'"')?;
    cursor.at += length + 1;
    Some(&rest[..length])
}

fn texts<'a>(cursor: &mut Cursor<'a>) -> Option<Vec<&'a str>> {
    let mut texts = Vec::new();
    cursor.expect(b'[')?;
    loop {
        texts.push(text(cursor)?);
        if cursor.takes(b']') {
            return Some(texts);
        }
        cursor.expect(b',')?;
    }
}

/// Takes a whole number from 1 on. If a fraction or an exponent follows, the caller finds no mark.
fn whole(cursor: &mut Cursor) -> Option<u64> {
    cursor.space();
    let digits = cursor.digits()?;
    if digits.starts_with('0') {
        return None;
    }
    digits.parse().ok()
}

fn line_in(part: Part) -> Line {
    Line {
        station: text_in(part, "station"),
        ask: text_in(part, "ask"),
        n: match part.get("n") {
            None => Field::Missing,
            Some(Value::Whole(n)) => Field::Right(n),
            Some(_) => Field::Wrong,
        },
        message: match part.get("message") {
            None => Field::Missing,
            Some(Value::Object(part)) => Field::Right(members_in(part)),
            Some(_) => Field::Wrong,
        },
    }
}

fn members_in(part: Part) -> Members {
    Members {
        kind: text_in(part, "kind"),
        thing: text_in(part, "thing"),
        container: text_in(part, "container"),
        place: text_in(part, "place"),
        day: text_in(part, "day"),
        loan: text_in(part, "loan"),
        partner: text_in(part, "partner"),
        objects: match part.get("objects") {
            None => Field::Missing,
            Some(Value::List(part)) => texts_in(part).map_or(Field::Wrong, Field::Right),
            Some(_) => Field::Wrong,
        },
        first: text_in(part, "first"),
        last: text_in(part, "last"),
        by: text_in(part, "by"),
    }
}

fn text_in<'a>(part: Part<'a>, key: &str) -> Field<&'a str> {
    match part.get(key) {
        None => Field::Missing,
        Some(Value::Text(text)) => Field::Right(text),
        Some(_) => Field::Wrong,
    }
}

/// The items of a list, if each is a text.
fn texts_in(list: Part<'_>) -> Option<Vec<&str>> {
    let text_of = |item| match item {
        Value::Text(text) => Some(text),
        _ => None,
    };
    list.items().map(text_of).collect()
}
