//! The hub: what is said to each line.
use crate::codes::is_thing;
use crate::fields::{self, Field};
use crate::json::Tape;
use crate::ledger::Ledger;
use crate::message::{text, Fault, Message, Named};
use crate::numbers::Numbers;
use crate::said::Said;
use crate::setup::Setup;

/// The most bytes of a line, without its line feed and a carriage return before it.
pub const LONGEST_LINE: usize = 16_384;
const WINDOW: usize = 256;
const LAST: u64 = 999_999;

struct Station {
    posted: u64,
    is_signed: bool,
    /// What is held, each message at its number in the ring.
    held: Vec<Option<Message>>,
}

impl Station {
    fn new() -> Station {
        Station {
            posted: 0,
            is_signed: false,
            held: (0..WINDOW).map(|_| None).collect(),
        }
    }

    /// The first refusal of a number that holds.
    fn refusal(&self, n: u64) -> Option<&'static str> {
        if n == 0 || n > LAST {
            return Some("BadNumber");
        }
        let is_near = n > self.posted && n <= self.posted + WINDOW as u64;
        if n <= self.posted
            || !self.is_signed && is_near && self.held[n as usize % WINDOW].is_some()
        {
            Some("Double")
        } else if self.is_signed {
            Some("SignedOff")
        } else if !is_near {
            Some("TooEarly")
        } else {
            None
        }
    }
}

pub struct Hub {
    pub ledger: Ledger,
    stations: Vec<Station>,
    station_names: Numbers,
    pub named: Named,
    tape: Tape,
}

enum Request<'a> {
    Ask(&'a str),
    Scan(u64, Message),
}

/// The station's name and what it asks, else the line's first fault.
fn read_line<'a>(
    tape: &'a mut Tape,
    named: &mut Named,
    line: &'a [u8],
) -> Result<(&'a str, Request<'a>), Fault> {
    if line.len() > LONGEST_LINE {
        return Err(Fault("TooLong", ""));
    }
    let Some(fields) = fields::read(tape, line) else {
        return Err(Fault("NotJson", ""));
    };
    let station = text(fields.station, "station", |_| true)?;
    if !matches!(fields.ask, Field::Missing) {
        return Ok((station, Request::Ask(text(fields.ask, "ask", is_thing)?)));
    }
    let n = fields.n.value("n")?;
    let members = fields.message.value("message")?;
    Ok((station, Request::Scan(n, named.message(members)?)))
}

impl Hub {
    pub fn new(setup: Setup, station_names: Numbers, named: Named) -> Hub {
        Hub {
            ledger: Ledger::new(setup),
            stations: (0..station_names.len()).map(|_| Station::new()).collect(),
            station_names,
            named,
            tape: Tape::default(),
        }
    }

    /// Does what a line asks, and appends what is said to it.
    pub fn reply(&mut self, number: u64, line: &[u8], said: &mut Said) {
        let Hub {
            ledger,
            stations,
            station_names,
            named,
            tape,
        } = self;
        let (name, request) = match read_line(tape, named, line) {
            Ok(read) => read,
            Err(Fault(word, key)) => {
                said.text("line ")
                    .number(number)
                    .text(" bad ")
                    .text(word)
                    .text(key)
                    .text("\n");
                return;
            }
        };
        let Some(station) = station_names.find(name) else {
            said.text("line ")
                .number(number)
                .text(" refused UnknownStation\n");
            return;
        };
        match request {
            Request::Ask(code) => answer(ledger, named, name, code, said),
            Request::Scan(n, message) => {
                let window = &mut stations[station as usize];
                arrive(ledger, named, window, station as u8, name, n, message, said);
            }
        }
    }
}

fn answer(ledger: &Ledger, named: &Named, name: &str, code: &str, said: &mut Said) {
    said.text(name).text(" ask ").text(code).text(" ");
    let Some(thing) = named
        .things
        .find(code)
        .filter(|&thing| ledger.setup.has_thing(thing))
    else {
        said.text("unknown\n");
        return;
    };
    let Some(place) = ledger.nest.place(thing) else {
        said.text("unplaced\n");
        return;
    };
    said.text("at ").text(named.places.text(place));
    for (i, container) in ledger.nest.chain(thing).enumerate() {
        said.text(if i == 0 { " in " } else { " " })
            .text(named.things.text(container));
    }
    said.text("\n");
}

#[allow(clippy::too_many_arguments)]
fn arrive(
    ledger: &mut Ledger,
    named: &Named,
    window: &mut Station,
    station: u8,
    name: &str,
    n: u64,
    message: Message,
    said: &mut Said,
) {
    if let Some(refusal) = window.refusal(n) {
        said.text(name)
            .text(" ")
            .number(n)
            .text(" refused ")
            .text(refusal)
            .text("\n");
        return;
    }
    window.held[n as usize % WINDOW] = Some(message);
    if n > window.posted + 1 {
        said.text(name).text(" ").number(n).text(" held\n");
        return;
    }
    while let Some(message) = window.held[(window.posted as usize + 1) % WINDOW].take() {
        window.posted += 1;
        window.is_signed = matches!(message, Message::SignOff { .. });
        let verdict = ledger.post(named, station, window.posted as u32, message);
        said.text(name)
            .text(" ")
            .number(window.posted)
            .text(" posted ");
        said.number(ledger.rows.len() as u64)
            .text(" ")
            .text(verdict.name())
            .text("\n");
        if window.is_signed {
            return;
        }
    }
}
