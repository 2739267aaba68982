//! A plain reader of the grammar of CIF files, which keeps no lines. It counts records and changes,
//! or names the first record at fault and its cause. It shares no code with the program, so that
//! the two can be compared.

use std::fmt;
use std::io::{Read, Result as Done};

/// The greatest number of records that the program takes.
pub const LIMIT: u64 = 4_294_967_294;

#[derive(Clone, Copy, Debug, PartialEq, Eq, PartialOrd, Ord)]
pub enum Cause {
    Length,
    /// The leftmost column with a byte outside 0x20 to 0x7E.
    Byte(usize),
    Kind,
    Place,
    /// The first column of the leftmost checked field that is bad.
    Field(usize),
    Midnights,
    NoEnd,
    After,
    TooMany,
}

#[derive(Clone, Copy, Debug, PartialEq, Eq)]
pub struct Fault {
    pub record: u64,
    pub cause: Cause,
}

#[derive(Clone, Copy, Debug, Default, PartialEq, Eq)]
pub struct Counts {
    pub records: u64,
    pub changes: u64,
}

pub type Answer = Result<Counts, Fault>;

impl fmt::Display for Cause {
    fn fmt(&self, out: &mut fmt::Formatter) -> fmt::Result {
        match self {
            Cause::Byte(column) => write!(out, "Byte {column}"),
            Cause::Field(column) => write!(out, "Field {column}"),
            other => write!(out, "{other:?}"),
        }
    }
}

/// The line that the program prints for an answer: on standard output if the file is accepted,
/// otherwise on standard error.
pub fn line_of(answer: &Answer) -> String {
    match answer {
        Ok(counts) => format!("accepted: {} records, {} changes\n", counts.records, counts.changes),
        Err(fault) => format!("docker: file refused: record {}: {}\n", fault.record, fault.cause),
    }
}

/// The first column of the leftmost bad field. All fields are judged before the leftmost bad one is
/// looked for, because the processor can't predict a branch for each field.
macro_rules! first_bad {
    ($line:expr, $(($column:expr, $check:expr)),+) => {{
        let line: &Line = $line;
        if $($check.holds(&line[$column - 1..]))&+ {
            return None;
        }
        $(if !$check.holds(&line[$column - 1..]) {
            return Some($column);
        })+
        None
    }};
}

type Line = [u8; 80];

#[derive(Clone, Copy, PartialEq, Eq)]
enum Kind {
    Header,
    Tiploc,
    Amended,
    Deleted,
    Association,
    Basic,
    Extra,
    Origin,
    Call,
    Terminus,
    Change,
    Trailer,
}

fn kind(line: &Line) -> Option<Kind> {
    // The most common kinds come first.
    Some(match &line[..2] {
        b"LI" => Kind::Call,
        b"HD" => Kind::Header,
        b"TI" => Kind::Tiploc,
        b"TA" => Kind::Amended,
        b"TD" => Kind::Deleted,
        b"AA" => Kind::Association,
        b"BS" => Kind::Basic,
        b"BX" => Kind::Extra,
        b"LO" => Kind::Origin,
        b"LT" => Kind::Terminus,
        b"CR" => Kind::Change,
        b"ZZ" => Kind::Trailer,
        _ => return None,
    })
}

/// Where in a file the next record comes, for example between two units.
#[derive(Clone, Copy, PartialEq, Eq)]
enum Place {
    Start,
    BetweenUnits,
    AfterBasic,
    AfterExtra,
    InJourney,
    End,
}

/// Reads records in turn.
pub struct Judge {
    limit: u64,
    counts: Counts,
    place: Place,
    /// Whether the schedule may lack a journey.
    journey_optional: bool,
    /// Whether the schedule is a deletion. If so, only the kinds and the order of its lines after
    /// BS are checked.
    deletion: bool,
    /// The half minutes of the journey's last event (0 before the first), and how often the times
    /// have fallen so far.
    last_event: u16,
    falls: u8,
}

impl Judge {
    pub fn new(limit: u64) -> Judge {
        Judge {
            limit,
            counts: Counts::default(),
            place: Place::Start,
            journey_optional: false,
            deletion: false,
            last_event: 0,
            falls: 0,
        }
    }

    /// Judges the next record, given without its line feed.
    pub fn record(&mut self, piece: &[u8]) -> Result<(), Fault> {
        self.counts.records += 1;
        let record = self.counts.records;
        self.judge(piece).map_err(|cause| Fault { record, cause })
    }

    pub fn finish(self) -> Answer {
        match self.place {
            Place::End => Ok(self.counts),
            _ => Err(Fault { record: self.counts.records + 1, cause: Cause::NoEnd }),
        }
    }

    fn judge(&mut self, piece: &[u8]) -> Result<(), Cause> {
        if self.counts.records > self.limit {
            return Err(Cause::TooMany);
        }
        if self.place == Place::End {
            return Err(Cause::After);
        }
        let piece = piece.strip_suffix(b"\r").unwrap_or(piece);
        let line: &Line = piece.try_into().map_err(|_| Cause::Length)?;
        if line.iter().fold(false, |bad, byte| bad | !printable(byte)) {
            return Err(Cause::Byte(1 + line.iter().position(|byte| !printable(byte)).unwrap_or(0)));
        }
        let kind = kind(line).ok_or(Cause::Kind)?;
        let next = self.next(kind).ok_or(Cause::Place)?;
        if let Some(column) = self.bad_field(kind, line) {
            return Err(Cause::Field(column));
        }
        if self.falls_thrice(kind, line) {
            return Err(Cause::Midnights);
        }
        self.place = next;
        self.counts.changes += changes(kind, line);
        Ok(())
    }

    /// The place of the record after one of this kind; none if no record of this kind can come
    /// here.
    fn next(&self, kind: Kind) -> Option<Place> {
        let unit = match kind {
            Kind::Tiploc | Kind::Amended | Kind::Deleted | Kind::Association => Some(Place::BetweenUnits),
            Kind::Basic => Some(Place::AfterBasic),
            Kind::Trailer => Some(Place::End),
            _ => None,
        };
        match (self.place, kind) {
            (Place::Start, Kind::Header) => Some(Place::BetweenUnits),
            (Place::BetweenUnits, _) => unit,
            (Place::AfterBasic, Kind::Extra) => Some(Place::AfterExtra),
            (Place::AfterBasic | Place::AfterExtra, Kind::Origin) => Some(Place::InJourney),
            (Place::AfterBasic | Place::AfterExtra, _) if self.journey_optional => unit,
            (Place::InJourney, Kind::Call | Kind::Change) => Some(Place::InJourney),
            (Place::InJourney, Kind::Terminus) => Some(Place::BetweenUnits),
            _ => None,
        }
    }

    fn bad_field(&self, kind: Kind, line: &Line) -> Option<usize> {
        let deletion = match kind {
            Kind::Association | Kind::Basic => line[2] == b'D',
            _ => self.deletion,
        };
        match (kind, deletion) {
            (Kind::Header, _) => first_bad!(line, (23, Check::DayMonthYear), (29, Check::Clock), (47, Check::OneOf(b"FU"))),
            (Kind::Tiploc | Kind::Deleted, _) => first_bad!(line, (3, Check::Tiploc)),
            (Kind::Amended, _) => first_bad!(line, (3, Check::Tiploc), (73, Check::TiplocOrBlank)),
            (Kind::Association, true) => first_bad!(line, (3, TRANSACTION), (16, Check::Date), (38, Check::Tiploc), (80, STP)),
            (Kind::Association, false) => first_bad!(
                line,
                (3, TRANSACTION),
                (16, Check::Date),
                (22, Check::EndDate),
                (28, Check::Days),
                (38, Check::Tiploc),
                (80, STP)
            ),
            (Kind::Basic, true) => first_bad!(line, (3, TRANSACTION), (10, Check::Date), (80, STP)),
            (Kind::Basic, false) => {
                first_bad!(line, (3, TRANSACTION), (10, Check::Date), (16, Check::EndDate), (22, Check::Days), (80, STP))
            }
            (Kind::Origin | Kind::Terminus, false) => {
                first_bad!(line, (3, Check::Tiploc), (11, Check::Time), (16, Check::Public))
            }
            (Kind::Call, false) => first_bad!(
                line,
                (3, Check::Tiploc),
                (11, Check::TimeOrBlank),
                (16, Check::TimeOrBlank),
                (21, Check::TimeOrBlank),
                (26, Check::Public),
                (30, Check::Public)
            ),
            _ => None,
        }
    }

    /// Follows the events of a journey. Returns whether the times fall for the third time in this
    /// record.
    fn falls_thrice(&mut self, kind: Kind, line: &Line) -> bool {
        let columns: &[usize] = match kind {
            Kind::Basic => {
                self.deletion = line[2] == b'D';
                self.journey_optional = self.deletion || line[79] == b'C';
                self.last_event = 0;
                self.falls = 0;
                return false;
            }
            Kind::Origin | Kind::Terminus => &[11],
            // In the order arrival, pass, departure.
            Kind::Call => &[11, 21, 16],
            _ => return false,
        };
        if self.deletion {
            return false;
        }
        for column in columns {
            let time = judged_time(&line[column - 1..]).unwrap_or(self.last_event);
            self.falls += u8::from(time < self.last_event);
            self.last_event = time;
        }
        self.falls > 2
    }
}

/// Judges the lines of one schedule in turn, in the form that a state's text has.
pub struct ScheduleJudge(Judge);

impl ScheduleJudge {
    pub fn new() -> ScheduleJudge {
        let mut judge = Judge::new(LIMIT);
        judge.place = Place::BetweenUnits;
        ScheduleJudge(judge)
    }

    /// Whether the schedule can continue with this line. The first line is a basic schedule, and no
    /// other line is.
    pub fn line(&mut self, line: &[u8]) -> bool {
        let judge = &mut self.0;
        let first = judge.counts.records == 0;
        let goes_on = match &line[..2] {
            b"BS" => first,
            b"BX" | b"LO" | b"LI" | b"CR" | b"LT" => !first,
            _ => false,
        };
        goes_on && judge.record(line).is_ok()
    }

    /// Whether the lines are a whole schedule.
    pub fn complete(&self) -> bool {
        let Judge { place, journey_optional, .. } = self.0;
        place == Place::BetweenUnits || journey_optional && matches!(place, Place::AfterBasic | Place::AfterExtra)
    }

    /// Whether each checked field of an association's line is good.
    pub fn association_is_good(line: [u8; 80]) -> bool {
        Judge::new(LIMIT).bad_field(Kind::Association, &line).is_none()
    }
}

fn printable(byte: &u8) -> bool {
    (0x20..=0x7E).contains(byte)
}

fn changes(kind: Kind, line: &Line) -> u64 {
    match kind {
        Kind::Tiploc | Kind::Deleted | Kind::Association | Kind::Basic => 1,
        Kind::Amended => {
            let (code, new) = (&line[2..9], &line[72..79]);
            if new == b"       " || new == code {
                1
            } else {
                2
            }
        }
        _ => 0,
    }
}

// ---------------------------------------------------------------- fields

#[derive(Clone, Copy)]
enum Check {
    OneOf(&'static [u8]),
    /// A text whose first character isn't a space.
    Tiploc,
    TiplocOrBlank,
    /// YYMMDD.
    Date,
    /// YYMMDD or 999999.
    EndDate,
    /// DDMMYY.
    DayMonthYear,
    Days,
    /// HHMM.
    Clock,
    /// HHMM, or four spaces.
    Public,
    /// HHMM and then H or a space.
    Time,
    TimeOrBlank,
}

const TRANSACTION: Check = Check::OneOf(b"NDR");
const STP: Check = Check::OneOf(b"PNOC");

impl Check {
    /// Whether the field that begins with these bytes is good.
    #[inline(always)]
    fn holds(self, field: &[u8]) -> bool {
        match self {
            Check::OneOf(letters) => letters.contains(&field[0]),
            Check::Tiploc => field[0] != b' ',
            Check::TiplocOrBlank => field[0] != b' ' || field[..7] == *b"       ",
            Check::Date => is_date(&field[..2], &field[2..4], &field[4..6]),
            Check::EndDate => field[..6] == *b"999999" || is_date(&field[..2], &field[2..4], &field[4..6]),
            Check::DayMonthYear => is_date(&field[4..6], &field[2..4], &field[..2]),
            Check::Days => field[..7].iter().fold(true, |good, mark| good & matches!(mark, b'0' | b'1')),
            Check::Clock => is_clock(field),
            Check::Public => (field[..4] == *b"    ") | is_clock(field),
            Check::Time => is_time(field),
            Check::TimeOrBlank => (field[..5] == *b"     ") | is_time(field),
        }
    }
}

/// The number in two characters, and whether both are digits.
#[inline(always)]
fn two(digits: &[u8]) -> (u16, bool) {
    let (tens, ones) = (digits[0].wrapping_sub(b'0'), digits[1].wrapping_sub(b'0'));
    (u16::from(tens) * 10 + u16::from(ones), (tens < 10) & (ones < 10))
}

/// Whether this is a day of the calendar. The years are 1960 to 2059; every fourth is a leap year.
fn is_date(year: &[u8], month: &[u8], day: &[u8]) -> bool {
    const LENGTHS: [u16; 13] = [0, 31, 28, 31, 30, 31, 30, 31, 31, 30, 31, 30, 31];
    let ((year, is_year), (month, is_month), (day, is_day)) = (two(year), two(month), two(day));
    let length = LENGTHS.get(usize::from(month)).copied().unwrap_or(0) + u16::from((month == 2) & (year % 4 == 0));
    is_year & is_month & is_day & (1..=length).contains(&day)
}

#[inline(always)]
fn is_clock(field: &[u8]) -> bool {
    let ((hour, is_hour), (minute, is_minute)) = (two(field), two(&field[2..]));
    is_hour & is_minute & (hour < 24) & (minute < 60)
}

#[inline(always)]
fn is_time(field: &[u8]) -> bool {
    is_clock(field) & ((field[4] == b' ') | (field[4] == b'H'))
}

/// The half minutes in a field that was already judged; none if the field is spaces.
#[inline(always)]
pub fn judged_time(field: &[u8]) -> Option<u16> {
    let digit = |at: usize| u16::from(field[at] & 0x0F);
    let minutes = (digit(0) * 10 + digit(1)) * 60 + digit(2) * 10 + digit(3);
    (field[0] != b' ').then_some(minutes * 2 + u16::from(field[4] == b'H'))
}

// ---------------------------------------------------------------- texts

/// Judges a whole text.
pub fn judge_text(text: &[u8], limit: u64) -> Answer {
    let mut judge = Judge::new(limit);
    let left = take_lines(&mut judge, text)?;
    if left < text.len() {
        judge.record(&text[left..])?;
    }
    judge.finish()
}

const ROOM: usize = 1 << 18;

/// Judges a text that is read in pieces.
pub fn judge_stream(source: &mut impl Read, limit: u64) -> Done<Answer> {
    let mut judge = Judge::new(limit);
    let mut text = vec![0; ROOM];
    let mut filled = 0;
    loop {
        if filled == text.len() {
            text.resize(2 * filled, 0);
        }
        let gained = source.read(&mut text[filled..])?;
        if gained == 0 {
            break;
        }
        filled += gained;
        let used = match take_lines(&mut judge, &text[..filled]) {
            Ok(used) => used,
            Err(fault) => return Ok(Err(fault)),
        };
        text.copy_within(used..filled, 0);
        filled -= used;
    }
    if filled > 0 {
        if let Err(fault) = judge.record(&text[..filled]) {
            return Ok(Err(fault));
        }
    }
    Ok(judge.finish())
}

/// Judges each line that has its line feed, and returns the number of bytes of these lines.
fn take_lines(judge: &mut Judge, text: &[u8]) -> Result<usize, Fault> {
    let mut used = 0;
    while let Some(end) = end_of_line(&text[used..]) {
        judge.record(&text[used..used + end])?;
        used += end + 1;
    }
    Ok(used)
}

/// The index of the first line feed. It usually comes after 80 other bytes.
pub fn end_of_line(text: &[u8]) -> Option<usize> {
    if text.len() > 80 && text[80] == b'\n' && text[..80].iter().fold(true, |none, &byte| none & (byte != b'\n')) {
        return Some(80);
    }
    text.iter().position(|&byte| byte == b'\n')
}
