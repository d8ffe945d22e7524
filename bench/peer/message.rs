//! The nine kinds of message, and how they are read: what they name is kept once, under a number.
use crate::codes::{day, is_loan, is_name, is_place, is_thing};
use crate::fields::{Field, Members};
use crate::numbers::Numbers;

/// Like a row it is kept whole, also what no reply tells.
#[allow(dead_code)]
pub enum Message {
    Move {
        thing: u32,
        place: u32,
        day: u32,
    },
    Pack {
        thing: u32,
        container: u32,
        day: u32,
    },
    Agree(Box<Agreement>),
    Authorise {
        loan: u32,
        by: u32,
    },
    Exit {
        thing: u32,
        loan: u32,
        day: u32,
    },
    Return {
        thing: u32,
        loan: u32,
        place: u32,
        day: u32,
    },
    Receive {
        thing: u32,
        loan: u32,
        place: u32,
        day: u32,
    },
    SignOff {
        by: u32,
    },
    Extend {
        loan: u32,
        last: u32,
    },
}

pub struct Agreement {
    pub loan: u32,
    pub partner: u32,
    pub objects: Vec<u32>,
    pub first: u32,
    pub last: u32,
}

/// All that messages name: first the places and things of the setup, then what came with the messages.
#[derive(Default)]
pub struct Named {
    pub places: Numbers,
    pub things: Numbers,
    pub loans: Numbers,
    pub names: Numbers,
}

/// What is wrong with a line, and its key, which is empty where it has none.
pub struct Fault(pub &'static str, pub &'static str);

/// The text of a field, where it has this shape.
pub fn text<'a>(
    field: Field<&'a str>,
    key: &'static str,
    fits: fn(&str) -> bool,
) -> Result<&'a str, Fault> {
    let text = field.value(key)?;
    if fits(text) {
        Ok(text)
    } else {
        Err(Fault("BadField ", key))
    }
}

fn day_at(field: Field<&str>, key: &'static str) -> Result<u32, Fault> {
    day(field.value(key)?).ok_or(Fault("BadField ", key))
}

impl Named {
    fn thing(&mut self, field: Field<&str>, key: &'static str) -> Result<u32, Fault> {
        Ok(self.things.number(text(field, key, is_thing)?))
    }

    fn place(&mut self, field: Field<&str>, key: &'static str) -> Result<u32, Fault> {
        Ok(self.places.number(text(field, key, is_place)?))
    }

    fn loan(&mut self, field: Field<&str>) -> Result<u32, Fault> {
        Ok(self.loans.number(text(field, "loan", is_loan)?))
    }

    fn by(&mut self, field: Field<&str>) -> Result<u32, Fault> {
        Ok(self.names.number(text(field, "by", is_name)?))
    }

    fn objects(&mut self, field: Field<Vec<&str>>) -> Result<Vec<u32>, Fault> {
        let codes = field.value("objects")?;
        if codes.len() > 256 || !codes.iter().all(|code| is_thing(code)) {
            return Err(Fault("BadField ", "objects"));
        }
        Ok(codes.iter().map(|code| self.things.number(code)).collect())
    }

    /// The message of these fields, otherwise their first fault, in the order of the fields here.
    pub fn message(&mut self, fields: Members) -> Result<Message, Fault> {
        let kind = match fields.kind {
            Field::Wrong => return Err(Fault("BadKind", "")),
            kind => kind.value("kind")?,
        };
        Ok(match kind {
            "move" => Message::Move {
                thing: self.thing(fields.thing, "thing")?,
                place: self.place(fields.place, "place")?,
                day: day_at(fields.day, "day")?,
            },
            "pack" => Message::Pack {
                thing: self.thing(fields.thing, "thing")?,
                container: self.thing(fields.container, "container")?,
                day: day_at(fields.day, "day")?,
            },
            "agree" => Message::Agree(Box::new(Agreement {
                loan: self.loan(fields.loan)?,
                partner: self.place(fields.partner, "partner")?,
                objects: self.objects(fields.objects)?,
                first: day_at(fields.first, "first")?,
                last: day_at(fields.last, "last")?,
            })),
            "authorise" => Message::Authorise {
                loan: self.loan(fields.loan)?,
                by: self.by(fields.by)?,
            },
            "exit" => Message::Exit {
                thing: self.thing(fields.thing, "thing")?,
                loan: self.loan(fields.loan)?,
                day: day_at(fields.day, "day")?,
            },
            "return" => Message::Return {
                thing: self.thing(fields.thing, "thing")?,
                loan: self.loan(fields.loan)?,
                place: self.place(fields.place, "place")?,
                day: day_at(fields.day, "day")?,
            },
            "receive" => Message::Receive {
                thing: self.thing(fields.thing, "thing")?,
                loan: self.loan(fields.loan)?,
                place: self.place(fields.place, "place")?,
                day: day_at(fields.day, "day")?,
            },
            "signoff" => Message::SignOff {
                by: self.by(fields.by)?,
            },
            "extend" => Message::Extend {
                loan: self.loan(fields.loan)?,
                last: day_at(fields.last, "last")?,
            },
            _ => return Err(Fault("BadKind", "")),
        })
    }
}
