//! Count lists, checked against the ledger.
use crate::codes;
use crate::hub::Hub;
use crate::ledger::Ledger;
use crate::message::Named;
use crate::numbers::Numbers;
use crate::said::Said;
use crate::setup;

const MOST_ROWS: usize = 100_000;

/// A row, with its place and its object by number where the setup has them.
pub struct CountRow {
    place: Option<u32>,
    object: Object,
}

enum Object {
    Unnamed,
    Unknown,
    Known(u32),
}

enum Answer {
    UnknownPlace,
    Counted,
    UnknownObject,
    Again,
    Unplaced,
    Found,
    Elsewhere(u32),
}

/// What is said to each row, and the objects that the list misses, each with a place of the list.
pub struct Report {
    answers: Vec<Answer>,
    missing: Vec<(u32, u32)>,
}

/// The rows that the bytes list, or what is printed of their first fault.
pub fn read(hub: &Hub, bytes: &[u8]) -> Result<Vec<CountRow>, String> {
    let text = std::str::from_utf8(bytes).map_err(|_| "NotCsv".to_string())?;
    let mut rest = text.strip_prefix('\u{feff}').unwrap_or(text);
    let (mut rows, mut number) = (Vec::new(), 0);
    while let Some(mut row) = setup::next_row(&mut rest) {
        number += 1;
        while row.last().is_some_and(|field| field.is_empty()) {
            row.pop();
        }
        if !row.is_empty() {
            let read = read_row(hub, &row, rows.len());
            rows.push(read.map_err(|fault| format!("{fault} row {number}"))?);
        }
    }
    Ok(rows)
}

fn read_row(hub: &Hub, row: &[String], kept: usize) -> Result<CountRow, &'static str> {
    let (place, object) = match row {
        [place] => (place, None),
        [place, object] => (place, Some(object)),
        _ => return Err("BadFields"),
    };
    if !codes::is_place(place) || object.is_some_and(|code| !codes::is_thing(code)) {
        return Err("BadCode");
    }
    if kept == MOST_ROWS {
        return Err("TooMany");
    }
    let setup = &hub.ledger.setup;
    let place = hub.named.places.find(place);
    let thing = |code: &String| match hub.named.things.find(code) {
        Some(thing) if setup.has_thing(thing) => Object::Known(thing),
        _ => Object::Unknown,
    };
    Ok(CountRow {
        place: place.filter(|&place| setup.has_place(place)),
        object: object.map_or(Object::Unnamed, thing),
    })
}

/// The report on a count list.
pub fn check(hub: &Hub, rows: &[CountRow]) -> Report {
    let Hub { ledger, named, .. } = hub;
    let outer: Vec<Vec<u32>> = (0..ledger.setup.places() as u32)
        .map(|place| outer_places(&named.places, ledger.setup.places(), place))
        .collect();
    let mut flags = vec![false; ledger.setup.things.len()];
    let mut mentions = vec![false; ledger.setup.places()];
    let (mut answers, mut mentioned) = (Vec::with_capacity(rows.len()), Vec::new());
    for row in rows {
        let is_again = match row.object {
            Object::Known(thing) => std::mem::replace(&mut flags[thing as usize], true),
            _ => false,
        };
        answers.push(answer(ledger, &outer, row, is_again));
        if let Some(place) = row.place {
            if !std::mem::replace(&mut mentions[place as usize], true) {
                mentioned.push(place);
            }
        }
    }
    let unnamed = unnamed(ledger, &outer, &flags);
    let missing = mentioned
        .iter()
        .flat_map(|&place| {
            unnamed[place as usize]
                .iter()
                .map(move |&thing| (place, thing))
        })
        .collect();
    Report { answers, missing }
}

fn answer(ledger: &Ledger, outer: &[Vec<u32>], row: &CountRow, is_again: bool) -> Answer {
    match (row.place, &row.object) {
        (None, _) => Answer::UnknownPlace,
        (_, Object::Unnamed) => Answer::Counted,
        (_, Object::Unknown) => Answer::UnknownObject,
        _ if is_again => Answer::Again,
        (Some(sought), &Object::Known(thing)) => match ledger.nest.place(thing) {
            None => Answer::Unplaced,
            Some(at) if outer[at as usize].contains(&sought) => Answer::Found,
            Some(at) => Answer::Elsewhere(at),
        },
    }
}

/// The places in which one lies: those of the setup whose codes are the fronts of its own, up to a segment's end.
fn outer_places(places: &Numbers, count: usize, place: u32) -> Vec<u32> {
    let code = places.text(place);
    let ends = code.match_indices('-').map(|(end, _)| end);
    ends.chain([code.len()])
        .filter_map(|end| places.find(&code[..end]))
        .filter(|&outer| (outer as usize) < count)
        .collect()
}

/// For each place the objects in it that no row names.
fn unnamed(ledger: &Ledger, outer: &[Vec<u32>], flags: &[bool]) -> Vec<Vec<u32>> {
    let mut unnamed = vec![Vec::new(); outer.len()];
    for (thing, _) in (0..).zip(flags).filter(|(_, &is_named)| !is_named) {
        if let (false, Some(at)) = (ledger.setup.is_container(thing), ledger.nest.place(thing)) {
            for &place in &outer[at as usize] {
                unnamed[place as usize].push(thing);
            }
        }
    }
    unnamed
}

/// Appends the report as it is printed.
pub fn tell(named: &Named, report: &Report, said: &mut Said) {
    for (number, answer) in (1..).zip(&report.answers) {
        said.text("row ").number(number).text(match answer {
            Answer::UnknownPlace => " UnknownPlace",
            Answer::Counted => " Counted",
            Answer::UnknownObject => " UnknownObject",
            Answer::Again => " Again",
            Answer::Unplaced => " Unplaced",
            Answer::Found => " Found",
            Answer::Elsewhere(_) => " Elsewhere ",
        });
        if let Answer::Elsewhere(place) = answer {
            said.text(named.places.text(*place));
        }
        said.text("\n");
    }
    for &(place, thing) in &report.missing {
        said.text("missing ")
            .text(named.places.text(place))
            .text(" ");
        said.text(named.things.text(thing)).text("\n");
    }
}
