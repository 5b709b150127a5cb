//! Long random sessions: each call is handed what the calls before left.
//!
//! A wild session makes any call. A kept session records only what the gate admits,
//! and a taped one does so by a tape fixed beforehand; for those two demand 3 is
//! looked at along the way, against a history that is replayed from the beginning
//! and never looks at a state.

use crate::case::{Call, Case, Field, UNREPORTED};
use crate::desk::Oracle;
use crate::log::{self, Row, Write};
use crate::random;
use crate::referee::{Difference, Referee};
use crate::rng::Rng;
use crate::sheet::{Rule, read_sheet, write_sheet};
use crate::{LOG_BYTES, STATE_WORDS};

type Outcome = Result<(), Box<Difference>>;

/// A log with more points than this is flushed or cut, for the most part.
const ENOUGH_POINTS: usize = 7;

/// What happened, in the words of demand 3.
enum Event {
    Write(Write),
    Flush,
    Cut(Vec<Row>),
    Reopening,
}

struct Session<'r, 'd> {
    referee: &'r mut Referee<'d>,
    /// All the memory of the session, under whatever call comes next.
    lent: Case,
    first_image: Vec<u8>,
    history: Vec<Event>,
}

pub fn session(rng: &mut Rng, referee: &mut Referee) -> Outcome {
    match rng.below(3) {
        0 => wild(rng, referee),
        1 => kept(rng, referee),
        _ => taped(rng, referee),
    }
}

fn session_length(rng: &mut Rng) -> usize {
    match rng.below(50) {
        0..=39 => rng.pick(&[0, 1, 8, 9, 12, 16, 17, 24, 40]),
        40..=48 => rng.pick(&[63, 64, 65, 72, 130]),
        _ => rng.pick(&[4095, 4096]),
    }
}

impl<'r, 'd> Session<'r, 'd> {
    fn start(rng: &mut Rng, referee: &'r mut Referee<'d>) -> Session<'r, 'd> {
        let mut lent = Case::new(Call::Open);
        let length = session_length(rng);
        // After a power loss state and log hold anything.
        lent.state = (0..STATE_WORDS).map(|_| rng.word()).collect();
        lent.log = random::some_bytes(rng, LOG_BYTES);
        lent.image = random::some_bytes(rng, length);
        lent.work = random::some_bytes(rng, length);
        lent.predicted = random::some_bytes(rng, length);
        lent.sheet = random::some_sheet(rng, &lent.image, &[]);
        let first_image = lent.image.clone();
        Session { referee, lent, first_image, history: Vec::new() }
    }

    /// Makes a call and takes over what it leaves.
    fn call(&mut self, call: Call) -> Result<u64, Box<Difference>> {
        self.lent.call = call;
        self.lent.report = UNREPORTED;
        let (number, after) = self.referee.compare(&self.trimmed())?;
        let before = std::mem::replace(&mut self.lent, after);
        // The memory that this call was not lent is still the session's.
        for field in [Field::Sheet, Field::Rows, Field::Tape, Field::Work, Field::Predicted] {
            if !call.takes(field) {
                *self.lent.bytes_mut(field).expect("a buffer") =
                    before.bytes(field).expect("a buffer").clone();
            }
        }
        if !call.takes(Field::State) {
            self.lent.state = before.state;
        }
        if !call.takes(Field::Log) {
            self.lent.log = before.log;
        }
        Ok(number)
    }

    /// The next case, without the memory that its call is not lent.
    fn trimmed(&self) -> Case {
        let mut case = self.lent.clone();
        let call = case.call;
        for field in [
            Field::Log,
            Field::Sheet,
            Field::Rows,
            Field::Tape,
            Field::Work,
            Field::Predicted,
            Field::Data,
        ] {
            if !call.takes(field) {
                case.bytes_mut(field).expect("a buffer").clear();
            }
        }
        if !call.takes(Field::State) {
            case.state.clear();
        }
        case
    }

    fn writes(&self) -> Vec<Write> {
        log::outstanding(&self.lent.state, &self.lent.image, &self.lent.log)
            .expect("a session keeps its state in shape")
    }

    fn points(&self) -> usize {
        log::points(&self.writes()).len()
    }

    fn aim(&mut self, write: Write) {
        self.lent.addr = write.addr as u64;
        self.lent.len = write.data.len() as u64;
        self.lent.data = write.data;
    }

    fn aimed(&self) -> Write {
        Write { addr: self.lent.addr as usize, data: self.lent.data.clone() }
    }

    /// A call that is mostly refused. What it would leave is not taken over.
    fn aside(&mut self, rng: &mut Rng) -> Outcome {
        self.lent.call = rng.pick(&Call::ALL);
        if self.lent.call == Call::Run {
            self.lent.rounds = rng.below(3) as u64;
        }
        let dear = matches!(self.lent.call, Call::Judge | Call::Gate);
        if dear && self.points() > ENOUGH_POINTS {
            self.lent.call = Call::Read;
        }
        let case = random::damaged(rng, &self.trimmed());
        self.referee.compare(&case).map(|_| ())
    }

    /// The image that the history gives.
    fn replayed(&self) -> Vec<u8> {
        let mut image = self.first_image.clone();
        let mut pending: Vec<Write> = Vec::new();
        for event in &self.history {
            match event {
                Event::Write(write) => pending.push(write.clone()),
                Event::Flush => {
                    image = log::read_image(&image, &pending);
                    pending.clear();
                }
                Event::Cut(rows) => {
                    image = log::replay(&image, &pending, &log::kept_by_rows(&pending, rows));
                    pending.clear();
                }
                Event::Reopening => pending.clear(),
            }
        }
        image
    }

    fn broken(&self, what: &str) -> Box<Difference> {
        Box::new(Difference {
            what: format!("demand 3: {what}"),
            case: self.trimmed().line(false),
            oracle: "the session's memory stands in the case".to_string(),
            desk: "as the oracle".to_string(),
        })
    }

    /// Demand 3 here and now: some cut image reopens, and the image is the history's.
    fn look_at_demand_3(&mut self, rng: &mut Rng) -> Outcome {
        if self.lent.image != self.replayed() {
            return Err(self.broken("the image is not what the history gives"));
        }
        let writes = self.writes();
        let table = random::row_table(rng, writes.len(), self.lent.image.len());
        let rows = log::rows(&table, writes.len(), self.lent.image.len()).expect("good rows");
        let mut next = Case::new(Call::Open);
        next.image = log::replay(&self.lent.image, &writes, &log::kept_by_rows(&writes, &rows));
        next.state = (0..STATE_WORDS).map(|_| rng.word()).collect();
        next.log = random::some_bytes(rng, LOG_BYTES);
        next.sheet = self.lent.sheet.clone();
        if next.put_to(&Oracle) != 0 {
            return Err(self.broken("an image that a cut could leave is refused"));
        }
        Ok(())
    }

    /// Opens under a sheet that the image obeys.
    fn open_well(&mut self) -> Outcome {
        let obeys = read_sheet(&self.lent.sheet).is_some_and(|rule| rule.holds(&self.lent.image));
        if !obeys {
            self.lent.sheet = write_sheet(&Rule::All(Vec::new()));
        }
        match self.call(Call::Open)? {
            0 => Ok(()),
            _ => Err(self.broken("the first opening is refused")),
        }
    }
}

/// A write for a session; the shorter an image, the more they overlap.
fn session_write(rng: &mut Rng, length: usize) -> Write {
    if rng.one_in(6) {
        return random::some_write(rng, length);
    }
    let wanted = rng.below(3);
    let writes = random::pointed_writes(rng, length, wanted);
    writes.into_iter().next().unwrap_or(Write { addr: 0, data: Vec::new() })
}

fn wild(rng: &mut Rng, referee: &mut Referee) -> Outcome {
    let mut session = Session::start(rng, referee);
    let length = session.lent.image.len();
    // Whether or not this opening is refused, the session needs a state in shape.
    if session.call(Call::Open)? != 0 {
        session.lent.state.fill(0);
    }
    let steps = rng.from_to(10, 120);
    for _ in 0..steps {
        session.aim(session_write(rng, length));
        let call = match rng.below(40) {
            0..=9 => Call::Write,
            10..=17 => Call::Gate,
            18..=19 => Call::Judge,
            20..=24 => Call::Read,
            25..=27 => Call::TapeWrite,
            28 => Call::TapeFlush,
            29 => Call::TapeCut,
            30 => Call::Flush,
            31 => Call::Cut,
            32 => Call::Open,
            33 => Call::Setup,
            34 => Call::Run,
            _ => {
                session.aside(rng)?;
                continue;
            }
        };
        let points = session.points();
        let dear = matches!(call, Call::Gate | Call::Judge) && points > ENOUGH_POINTS;
        if dear && points <= 16 && !rng.one_in(400) {
            session.call(rng.pick(&[Call::Flush, Call::Read, Call::Write]))?;
            continue;
        }
        let count = session.writes().len();
        match call {
            Call::Cut => session.lent.rows = random::row_table(rng, count, length),
            Call::TapeWrite | Call::TapeFlush | Call::TapeCut => {
                session.lent.start = rng.below(3) as u64;
                session.lent.tape = vec![0; session.lent.start as usize];
                session.lent.tape.push(rng.pick(&[0x00, 0x80]));
                session.lent.tape.extend(random::row_table(rng, count + 1, length));
            }
            Call::Setup | Call::Run => {
                session.lent.addr = rng.below(length + 1) as u64;
                session.lent.val0 = rng.byte() & 1;
                session.lent.val1 = rng.byte() & 3;
                session.lent.rounds = rng.below(3) as u64;
            }
            _ => {}
        }
        session.call(call)?;
    }
    Ok(())
}

fn kept(rng: &mut Rng, referee: &mut Referee) -> Outcome {
    let mut session = Session::start(rng, referee);
    let length = session.lent.image.len();
    session.open_well()?;
    let steps = rng.from_to(10, 120);
    for _ in 0..steps {
        session.aim(session_write(rng, length));
        let crowded = session.points() > ENOUGH_POINTS && !rng.one_in(200);
        match rng.below(20) {
            0..=9 if !crowded => {
                if session.call(Call::Gate)? == 0 {
                    let write = session.aimed();
                    session.history.push(Event::Write(write));
                }
            }
            10..=11 if !crowded => {
                // The judging call's admission is good for a plain write in the same state.
                if session.call(Call::Judge)? == 0 && session.call(Call::Write)? == 0 {
                    let write = session.aimed();
                    session.history.push(Event::Write(write));
                }
            }
            12..=13 => drop(session.call(Call::Read)?),
            14 => {
                if session.call(Call::Open)? != 0 {
                    return Err(session.broken("a reopening is refused"));
                }
                session.history.push(Event::Reopening);
            }
            15..=16 => session.aside(rng)?,
            17..=18 => {
                let count = session.writes().len();
                let table = random::row_table(rng, count, length);
                let rows = log::rows(&table, count, length).expect("good rows");
                session.lent.rows = table;
                session.call(Call::Cut)?;
                session.history.push(Event::Cut(rows));
            }
            _ => {
                session.call(Call::Flush)?;
                session.history.push(Event::Flush);
            }
        }
        session.look_at_demand_3(rng)?;
    }
    Ok(())
}

/// One epoch of a tape: how it ends and its rows.
struct Epoch {
    header: u8,
    table: Vec<u8>,
    rows: Vec<Row>,
}

fn taped(rng: &mut Rng, referee: &mut Referee) -> Outcome {
    let mut session = Session::start(rng, referee);
    let length = session.lent.image.len();
    let epochs: Vec<Epoch> = (0..rng.from_to(1, 12))
        .map(|_| {
            let count = rng.pick(&[0, 1, 1, 2, 3, 4, 5]);
            let table = random::row_table(rng, count, length);
            let rows = log::rows(&table, count, length).expect("good rows");
            Epoch { header: rng.pick(&[0x00, 0x80]), table, rows }
        })
        .collect();
    session.lent.tape.clear();
    for epoch in &epochs {
        session.lent.tape.push(epoch.header);
        session.lent.tape.extend(&epoch.table);
    }
    session.lent.start = 0;
    session.open_well()?;
    for epoch in epochs {
        for row in 0..epoch.rows.len() {
            record_by_tape(rng, &mut session)?;
            let pending = session.writes();
            let kept = if epoch.header == 0x80 {
                log::points(&pending).into_iter().collect()
            } else {
                log::kept_by_rows(&pending, &epoch.rows[..=row])
            };
            let predicted = log::replay(&session.replayed(), &pending, &kept);
            if session.lent.predicted != predicted {
                return Err(session.broken("the predicted image is not the replay"));
            }
            if rng.one_in(4) {
                session.aside(rng)?;
            }
            session.look_at_demand_3(rng)?;
        }
        let (ending, other) = match epoch.header {
            0x80 => (Call::TapeFlush, Call::TapeCut),
            _ => (Call::TapeCut, Call::TapeFlush),
        };
        if rng.one_in(3) {
            session.call(other)?;
        }
        if session.call(ending)? != 0 {
            return Err(session.broken("the epoch's own ending is refused"));
        }
        session.history.push(match ending {
            Call::TapeFlush => Event::Flush,
            _ => Event::Cut(epoch.rows),
        });
        if session.lent.predicted != session.lent.image {
            return Err(session.broken("the predicted image is not the image found"));
        }
        session.look_at_demand_3(rng)?;
        if rng.one_in(4) {
            session.call(Call::Open)?;
            session.history.push(Event::Reopening);
        }
    }
    // The tape is spent.
    session.aim(Write { addr: 0, data: Vec::new() });
    session.call(Call::TapeWrite)?;
    Ok(())
}

/// Records one write that the judging call admits. An empty one always is.
fn record_by_tape(rng: &mut Rng, session: &mut Session) -> Outcome {
    let length = session.lent.image.len();
    for attempt in 0.. {
        let empty = attempt == 4 || session.points() > ENOUGH_POINTS;
        session.aim(match empty {
            true => Write { addr: length, data: Vec::new() },
            false => session_write(rng, length),
        });
        if session.call(Call::Judge)? == 0 {
            break;
        }
        if empty {
            return Err(session.broken("an empty write is denied"));
        }
    }
    if session.call(Call::TapeWrite)? != 0 {
        return Err(session.broken("an admitted write is refused by tape"));
    }
    let write = session.aimed();
    session.history.push(Event::Write(write));
    Ok(())
}
