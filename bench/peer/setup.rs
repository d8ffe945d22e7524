//! The setup: stations, places and things, read from rows of comma-separated fields.
use crate::codes;
use crate::hub::Hub;
use crate::message::Named;
use crate::numbers::Numbers;

#[derive(Default)]
pub struct Setup {
    /// Of each place whether it is the museum's own; places and things go by their numbers.
    insides: Vec<bool>,
    pub things: Vec<Thing>,
}

#[derive(Clone, Copy, PartialEq)]
enum Kind {
    Own,
    Borrowed,
    Container,
}

pub struct Thing {
    kind: Kind,
    #[allow(dead_code)]
    normal: Option<u32>,
}

impl Setup {
    pub fn places(&self) -> usize {
        self.insides.len()
    }

    pub fn has_place(&self, place: u32) -> bool {
        (place as usize) < self.insides.len()
    }

    pub fn is_inside(&self, place: u32) -> bool {
        self.insides[place as usize]
    }

    pub fn has_thing(&self, thing: u32) -> bool {
        (thing as usize) < self.things.len()
    }

    pub fn is_container(&self, thing: u32) -> bool {
        self.things[thing as usize].kind == Kind::Container
    }

    pub fn is_borrowed(&self, thing: u32) -> bool {
        self.things[thing as usize].kind == Kind::Borrowed
    }
}

/// What is read of a setup, row by row.
#[derive(Default)]
struct Reading {
    setup: Setup,
    stations: Numbers,
    named: Named,
}

/// A hub over the setup that the bytes list, or what is printed of their first fault.
pub fn read(bytes: &[u8]) -> Result<Hub, String> {
    let text = std::str::from_utf8(bytes).map_err(|_| "NotCsv".to_string())?;
    let mut rest = text.strip_prefix('\u{feff}').unwrap_or(text);
    let (mut reading, mut number) = (Reading::default(), 0);
    while let Some(mut row) = next_row(&mut rest) {
        number += 1;
        while row.last().is_some_and(|field| field.is_empty()) {
            row.pop();
        }
        if !row.is_empty() {
            reading
                .add(&row)
                .map_err(|fault| format!("{fault} row {number}"))?;
        }
    }
    if reading.stations.len() == 0 {
        return Err("NoStation".to_string());
    }
    Ok(Hub::new(reading.setup, reading.stations, reading.named))
}

/// The next row of RFC 4180. It ends at a line feed, a carriage return or both, and empty lines aren't rows.
pub fn next_row(rest: &mut &str) -> Option<Vec<String>> {
    let mut text = rest.trim_start_matches(['\r', '\n']);
    if text.is_empty() {
        return None;
    }
    let mut row = Vec::new();
    loop {
        let mut field = take_quoted(&mut text);
        let end = text.find([',', '\r', '\n']).unwrap_or(text.len());
        field.push_str(&text[..end]);
        row.push(field);
        *rest = text.get(end + 1..).unwrap_or("");
        if !text[end..].starts_with(',') {
            return Some(row);
        }
        text = rest;
    }
}

/// What stands in quotes at the start of a field: two quotes in it are one.
fn take_quoted(text: &mut &str) -> String {
    let mut field = String::new();
    let Some(mut rest) = text.strip_prefix('"') else {
        return field;
    };
    loop {
        let end = rest.find('"').unwrap_or(rest.len());
        field.push_str(&rest[..end]);
        rest = rest.get(end + 1..).unwrap_or("");
        let Some(after) = rest.strip_prefix('"') else {
            *text = rest;
            return field;
        };
        field.push('"');
        rest = after;
    }
}

impl Reading {
    fn add(&mut self, row: &[String]) -> Result<(), &'static str> {
        let (kind, fields) = (row[0].as_str(), &row[1..]);
        let wanted = match kind {
            "station" | "box" | "lent" => 1,
            "place" | "own" => 2,
            _ => return Err("BadKind"),
        };
        if fields.len() != wanted
            || kind == "place" && fields[1] != "inside" && fields[1] != "elsewhere"
        {
            return Err("BadFields");
        }
        let code = fields[0].as_str();
        match kind {
            "station" => add_new(&mut self.stations, code, codes::is_station(code), 64),
            "place" => {
                add_new(&mut self.named.places, code, codes::is_place(code), 10_000)?;
                self.setup.insides.push(fields[1] == "inside");
                Ok(())
            }
            "box" => self.add_thing(codes::is_container(code), code, Kind::Container, None),
            "lent" => self.add_thing(codes::is_borrowed(code), code, Kind::Borrowed, None),
            _ => {
                let is_right = codes::is_own(code) && codes::is_place(&fields[1]);
                self.add_thing(is_right, code, Kind::Own, Some(&fields[1]))
            }
        }
    }

    fn add_thing(
        &mut self,
        is_right: bool,
        code: &str,
        kind: Kind,
        normal: Option<&str>,
    ) -> Result<(), &'static str> {
        let place = normal.and_then(|place| self.named.places.find(place));
        if is_right && self.named.things.find(code).is_none() && normal.is_some() && place.is_none()
        {
            return Err("UnknownNormal");
        }
        add_new(&mut self.named.things, code, is_right, 100_000)?;
        self.setup.things.push(Thing {
            kind,
            normal: place,
        });
        Ok(())
    }
}

/// Adds a text that has the right shape, is new, and not one too many.
fn add_new(
    known: &mut Numbers,
    text: &str,
    is_right: bool,
    most: usize,
) -> Result<(), &'static str> {
    if !is_right {
        return Err("BadCode");
    }
    if known.find(text).is_some() {
        return Err("Repeated");
    }
    if known.len() >= most {
        return Err("TooMany");
    }
    known.number(text);
    Ok(())
}
