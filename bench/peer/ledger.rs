//! The posted list, and what it says: where things are and were, and the loans.
use crate::message::{Agreement, Message, Named};
use crate::nest::{Nest, Target};
use crate::numbers::Map;
use crate::setup::Setup;

macro_rules! verdicts {
    ($($name:ident)*) => {
        #[derive(Clone, Copy)]
        pub enum Verdict { $($name),* }

        impl Verdict {
            pub fn name(self) -> &'static str {
                match self { $(Verdict::$name => stringify!($name)),* }
            }
        }
    };
}

verdicts! {
    Applied UnknownThing UnknownPlace ElsewherePlace NotHere UnknownContainer ContainerNotHere Cycle TooDeep LoanKnown
    InsidePartner NoObjects NotObject Repeated WrongOwner BadTerm UnknownLoan AlreadyAuthorised NotAuthorised NotListed
    WrongStage TermOver WrongDirection NotWithPartner AlreadyHere NotLater
}

#[derive(Clone, Copy, PartialEq)]
pub enum Stage {
    Awaiting,
    Away,
    Back,
    Here,
    GivenBack,
}

pub struct Loan {
    is_out: bool,
    partner: u32,
    lines: Map<u32, Stage>,
    last: u32,
    is_authorised: bool,
}

/// A row of the record. Like a spot it is kept for what that costs: no reply tells it.
#[allow(dead_code)]
pub struct Row {
    station: u8,
    verdict: Verdict,
    n: u32,
    message: Message,
}

/// Where a thing came, by which entry, and which spot it had before, counted from 1; 0 is none.
#[allow(dead_code)]
pub struct Spot {
    entry: u32,
    place: u32,
    day: u32,
    before: u32,
}

pub struct Ledger {
    pub setup: Setup,
    pub nest: Nest,
    pub rows: Vec<Row>,
    spots: Vec<Spot>,
    last_spots: Vec<u32>,
    loans: Vec<Option<Loan>>,
    /// The things that a put moves, or that cross: the list is kept for what it takes to make it.
    moved: Vec<u32>,
}

impl Ledger {
    pub fn new(setup: Setup) -> Ledger {
        let things = setup.things.len();
        Ledger {
            nest: Nest::new(things),
            rows: Vec::new(),
            spots: Vec::new(),
            last_spots: vec![0; things],
            loans: Vec::new(),
            moved: Vec::new(),
            setup,
        }
    }

    /// Posts a station's next message, and answers its verdict.
    pub fn post(&mut self, named: &Named, station: u8, n: u32, message: Message) -> Verdict {
        let verdict = self
            .judge(named, &message)
            .err()
            .unwrap_or(Verdict::Applied);
        self.rows.push(Row {
            station,
            verdict,
            n,
            message,
        });
        verdict
    }

    /// Applies a message, or answers the first refusal that holds.
    fn judge(&mut self, named: &Named, message: &Message) -> Result<(), Verdict> {
        match *message {
            Message::Move { thing, place, day } => {
                self.thing(thing)?;
                self.own_place(place)?;
                refuse(self.nest.is_away(&self.setup, thing), Verdict::NotHere)?;
                self.put(thing, Target::Place(place), day);
            }
            Message::Pack {
                thing,
                container,
                day,
            } => self.pack(thing, container, day)?,
            Message::Agree(ref agreement) => self.agree(named, agreement)?,
            Message::Authorise { loan, .. } => {
                let loan = self.loan_mut(loan)?;
                refuse(loan.is_authorised, Verdict::AlreadyAuthorised)?;
                loan.is_authorised = true;
            }
            Message::Exit { thing, loan, day } => self.exit(thing, loan, day)?,
            Message::Return {
                thing,
                loan,
                place,
                day,
            } => self.come_back(thing, loan, place, day)?,
            Message::Receive {
                thing,
                loan,
                place,
                day,
            } => self.receive(thing, loan, place, day)?,
            Message::SignOff { .. } => {}
            Message::Extend { loan, last } => {
                let loan = self.loan_mut(loan)?;
                refuse(!loan.is_authorised, Verdict::NotAuthorised)?;
                refuse(last <= loan.last, Verdict::NotLater)?;
                loan.last = last;
            }
        }
        Ok(())
    }

    /// A thing of the setup.
    fn thing(&self, thing: u32) -> Result<(), Verdict> {
        refuse(!self.setup.has_thing(thing), Verdict::UnknownThing)
    }

    /// A place of the museum's own.
    fn own_place(&self, place: u32) -> Result<(), Verdict> {
        refuse(!self.setup.has_place(place), Verdict::UnknownPlace)?;
        refuse(!self.setup.is_inside(place), Verdict::ElsewherePlace)
    }

    fn loan(&self, loan: u32) -> Result<&Loan, Verdict> {
        let loan = self.loans.get(loan as usize).and_then(Option::as_ref);
        loan.ok_or(Verdict::UnknownLoan)
    }

    fn loan_mut(&mut self, loan: u32) -> Result<&mut Loan, Verdict> {
        let loan = self.loans.get_mut(loan as usize).and_then(Option::as_mut);
        loan.ok_or(Verdict::UnknownLoan)
    }

    fn pack(&mut self, thing: u32, container: u32, day: u32) -> Result<(), Verdict> {
        self.thing(thing)?;
        let is_container = self.setup.has_thing(container) && self.setup.is_container(container);
        refuse(!is_container, Verdict::UnknownContainer)?;
        refuse(self.nest.is_away(&self.setup, thing), Verdict::NotHere)?;
        refuse(
            !self.nest.is_inside(&self.setup, container),
            Verdict::ContainerNotHere,
        )?;
        refuse(self.nest.is_cycle(thing, container), Verdict::Cycle)?;
        refuse(self.nest.is_too_deep(thing, container), Verdict::TooDeep)?;
        self.put(thing, Target::Container(container), day);
        Ok(())
    }

    /// Puts a thing, and writes a spot for each thing whose place changed.
    fn put(&mut self, thing: u32, target: Target, day: u32) {
        self.nest.put(thing, target, &mut self.moved);
        let Some(place) = self.nest.place(thing) else {
            return;
        };
        let entry = self.rows.len() as u32 + 1;
        for &thing in &self.moved {
            let last = &mut self.last_spots[thing as usize];
            self.spots.push(Spot {
                entry,
                place,
                day,
                before: *last,
            });
            *last = self.spots.len() as u32;
        }
    }

    fn agree(&mut self, named: &Named, agreement: &Agreement) -> Result<(), Verdict> {
        let (setup, objects) = (&self.setup, &agreement.objects);
        for &object in objects {
            self.thing(object)?;
        }
        refuse(!setup.has_place(agreement.partner), Verdict::UnknownPlace)?;
        refuse(self.loan(agreement.loan).is_ok(), Verdict::LoanKnown)?;
        refuse(setup.is_inside(agreement.partner), Verdict::InsidePartner)?;
        refuse(objects.is_empty(), Verdict::NoObjects)?;
        refuse(
            objects.iter().any(|&object| setup.is_container(object)),
            Verdict::NotObject,
        )?;
        let lines: Map<u32, Stage> = objects
            .iter()
            .map(|&object| (object, Stage::Awaiting))
            .collect();
        refuse(lines.len() < objects.len(), Verdict::Repeated)?;
        let is_out = named.loans.text(agreement.loan).starts_with("LO");
        let is_wrong = |&object: &u32| setup.is_borrowed(object) == is_out;
        refuse(objects.iter().any(is_wrong), Verdict::WrongOwner)?;
        refuse(agreement.last < agreement.first, Verdict::BadTerm)?;
        self.loans
            .resize_with(named.loans.len().max(self.loans.len()), || None);
        self.loans[agreement.loan as usize] = Some(Loan {
            is_out,
            partner: agreement.partner,
            lines,
            last: agreement.last,
            is_authorised: false,
        });
        Ok(())
    }

    /// Finds the objects that cross with a thing; each must be listed, and at this stage.
    fn crossing(&mut self, loan: u32, thing: u32, stage: Stage) -> Result<(), Verdict> {
        self.nest.carried(thing, &mut self.moved);
        let setup = &self.setup;
        self.moved.retain(|&thing| !setup.is_container(thing));
        let lines = &self.loan(loan)?.lines;
        let is_unlisted = self.moved.iter().any(|thing| !lines.contains_key(thing));
        refuse(is_unlisted, Verdict::NotListed)?;
        let is_elsewhere = self.moved.iter().any(|thing| lines[thing] != stage);
        refuse(is_elsewhere, Verdict::WrongStage)
    }

    /// Writes the stage of the objects that cross.
    fn set_stages(&mut self, loan: u32, stage: Stage) {
        if let Some(Some(loan)) = self.loans.get_mut(loan as usize) {
            loan.lines
                .extend(self.moved.iter().map(|&thing| (thing, stage)));
        }
    }

    fn exit(&mut self, thing: u32, code: u32, day: u32) -> Result<(), Verdict> {
        self.thing(thing)?;
        let loan = self.loan(code)?;
        let (is_out, partner, last) = (loan.is_out, loan.partner, loan.last);
        refuse(
            !is_out && self.setup.is_container(thing),
            Verdict::NotObject,
        )?;
        refuse(!loan.is_authorised, Verdict::NotAuthorised)?;
        refuse(!self.nest.is_inside(&self.setup, thing), Verdict::NotHere)?;
        let (before, after) = if is_out {
            (Stage::Awaiting, Stage::Away)
        } else {
            (Stage::Here, Stage::GivenBack)
        };
        self.crossing(code, thing, before)?;
        refuse(is_out && day > last, Verdict::TermOver)?;
        self.set_stages(code, after);
        self.put(thing, Target::Place(partner), day);
        Ok(())
    }

    fn come_back(&mut self, thing: u32, code: u32, place: u32, day: u32) -> Result<(), Verdict> {
        self.thing(thing)?;
        self.own_place(place)?;
        let loan = self.loan(code)?;
        refuse(!loan.is_authorised, Verdict::NotAuthorised)?;
        refuse(!loan.is_out, Verdict::WrongDirection)?;
        refuse(
            self.nest.place(thing) != Some(loan.partner),
            Verdict::NotWithPartner,
        )?;
        self.crossing(code, thing, Stage::Away)?;
        self.set_stages(code, Stage::Back);
        self.put(thing, Target::Place(place), day);
        Ok(())
    }

    fn receive(&mut self, thing: u32, code: u32, place: u32, day: u32) -> Result<(), Verdict> {
        self.thing(thing)?;
        self.own_place(place)?;
        let loan = self.loan(code)?;
        let last = loan.last;
        refuse(self.setup.is_container(thing), Verdict::NotObject)?;
        refuse(!loan.is_authorised, Verdict::NotAuthorised)?;
        refuse(loan.is_out, Verdict::WrongDirection)?;
        refuse(
            self.nest.is_inside(&self.setup, thing),
            Verdict::AlreadyHere,
        )?;
        self.crossing(code, thing, Stage::Awaiting)?;
        refuse(day > last, Verdict::TermOver)?;
        self.set_stages(code, Stage::Here);
        self.put(thing, Target::Place(place), day);
        Ok(())
    }
}

fn refuse(holds: bool, verdict: Verdict) -> Result<(), Verdict> {
    if holds {
        Err(verdict)
    } else {
        Ok(())
    }
}
