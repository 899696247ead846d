//! A plain decoder of 5250 streams over Telnet, against which `t5250 check` is measured.
//!
//! It reads what `t5250 check` reads, refuses what that refuses, at the same byte and for the same reason, keeps the
//! same items and prints the same line; nothing of it is proved. It is one byte machine over tokens (RFC 854, RFC 885),
//! headers (RFC 1205) and what bodies are made of (SC30-3533), and needs no crate:
//!
//!     rustc --edition 2021 -O -C debuginfo=0 plain_decoder.rs
//!     plain_decoder [--answers] [--cut N] [--keep] [FILE]
//!
//! FILE, or standard input, is hex text. An item is dropped once it is counted; by `--keep` all are kept in one list to
//! the end.

use std::io::Read;
use std::process::ExitCode;

// ---- Reasons ----

#[derive(Clone, Copy, Debug)]
enum Reason {
    BadCommand = 1,
    StraySe = 2,
    BadSub = 3,
    SubTooLong = 4,
    LengthBelowHeader = 10,
    BadType = 11,
    BadReserved = 12,
    BadVariableLength = 13,
    UnknownOpcode = 14,
    TooLong = 15,
    TooShort = 16,
    NoEscape = 20,
    UnknownCommand = 21,
    BadAddress = 24,
    BadSohLength = 25,
    Resequencing = 26,
    BadEraseList = 27,
    BadRepeat = 28,
    BadFormatByte = 29,
    StructuredField = 30,
    AlternateSize = 31,
    SaveRestore = 32,
    Roll = 33,
    ErrorCode = 34,
    ReadScreen = 35,
    ReadImmediate = 36,
    ExtendedAttribute = 38,
    TransparentData = 39,
    DisplayStructuredField = 40,
    TooManyFcws = 41,
    LeftOutShift = 42,
    BadAid = 43,
    EndedInside = 44,
    BadAnswerByte = 45,
}

// ---- Items ----

const IAC: u8 = 0xff;

#[derive(Clone, Copy, Debug)]
enum Verb {
    Will,
    Wont,
    Do,
    Dont,
}

#[derive(Debug)]
#[allow(dead_code)]
enum Telnet {
    /// F1 to F9.
    Command(u8),
    Option(Verb, u8),
    Sub {
        option: u8,
        data: Box<[u8]>,
    },
}

#[derive(Clone, Copy, Debug)]
enum Opcode {
    NoOperation,
    Invite,
    OutputOnly,
    PutGet,
    SaveScreen,
    RestoreScreen,
    ReadImmediate,
    ReadScreen,
    CancelInvite,
    MessageLightOn,
    MessageLightOff,
}

impl Opcode {
    fn from_byte(byte: u8) -> Option<Opcode> {
        Some(match byte {
            0x00 => Opcode::NoOperation,
            0x01 => Opcode::Invite,
            0x02 => Opcode::OutputOnly,
            0x03 => Opcode::PutGet,
            0x04 => Opcode::SaveScreen,
            0x05 => Opcode::RestoreScreen,
            0x06 => Opcode::ReadImmediate,
            0x08 => Opcode::ReadScreen,
            0x0a => Opcode::CancelInvite,
            0x0b => Opcode::MessageLightOn,
            0x0c => Opcode::MessageLightOff,
            _ => return None,
        })
    }
}

#[derive(Debug)]
#[allow(dead_code)]
struct Record<U> {
    flags: u16,
    opcode: Opcode,
    body: Vec<U>,
}

#[derive(Debug)]
#[allow(dead_code)]
enum Item<U> {
    Record(Record<U>),
    Telnet(Telnet),
}

// ---- What a body is made of ----

/// A cell: 0 to 1,919.
type Address = u16;

fn address(row: u8, column: u8) -> Result<Address, Reason> {
    if (1..=80).contains(&column) {
        Ok((Address::from(row) - 1) * 80 + Address::from(column) - 1)
    } else {
        Err(Reason::BadAddress)
    }
}

fn row(byte: u8) -> Result<u8, Reason> {
    if (1..=24).contains(&byte) {
        Ok(byte)
    } else {
        Err(Reason::BadAddress)
    }
}

fn word(high: u8, low: u8) -> u16 {
    u16::from_be_bytes([high, low])
}

fn is_order(byte: u8) -> bool {
    matches!(byte, 0x01..=0x04 | 0x10..=0x15 | 0x1d)
}

/// A list of at most `N` values in place.
#[derive(Clone, Copy, Debug)]
struct Short<T, const N: usize> {
    count: u8,
    values: [T; N],
}

impl<T: Copy + Default, const N: usize> Short<T, N> {
    fn new() -> Self {
        Short { count: 0, values: [T::default(); N] }
    }

    fn len(&self) -> usize {
        usize::from(self.count)
    }

    fn push(&mut self, value: T) {
        self.values[self.len()] = value;
        self.count += 1;
    }
}

/// Reads the bytes of a record's body, and adds each unit that they complete to the list.
trait Body {
    type Unit;
    fn new() -> Self;
    fn take(&mut self, byte: u8, units: &mut Vec<Self::Unit>) -> Result<(), Reason>;
    /// Whether no unit is begun.
    fn is_between(&self) -> bool;
}

// ---- A host's body ----

#[derive(Clone, Copy, Debug)]
#[allow(dead_code)]
enum Element {
    ClearUnit,
    ClearFormat,
    Control { command: Control, cc1: u8, cc2: u8 },
    Soh(Short<u8, 7>),
    Ra { to: Address, byte: u8 },
    Ea { to: Address, kinds: Short<u8, 4> },
    Address { order: Order, to: Address },
    Sf { attribute: u8, format: Option<u16>, length: u16, controls: Short<u16, 8> },
    Put(u8),
}

/// A command with two control characters.
#[derive(Clone, Copy, Debug)]
enum Control {
    Write,
    ReadInput,
    ReadMdt,
    ReadMdtAlternate,
}

/// An order that begins with an address.
#[derive(Clone, Copy, Debug)]
enum Order {
    Ra,
    Ea,
    Sba,
    Ic,
    Mc,
}

/// What of an element comes next, with the bytes before it that are still needed.
#[derive(Clone, Copy, Debug)]
enum Phase {
    Begin,
    Command,
    FirstControl(Control),
    SecondControl(Control, u8),
    SohLength,
    SohByte { length: u8 },
    Row(Order),
    Column(Order, u8),
    RepeatByte(Address),
    EraseLength(Address),
    EraseKind { to: Address, count: u8 },
    FieldFirst,
    FormatLow(u8),
    FieldNext,
    ControlLow(u8),
    LengthHigh { attribute: u8 },
    LengthLow { attribute: u8, high: u8 },
}

struct Commands {
    phase: Phase,
    /// Whether orders and bytes for cells may stand here, and not commands alone.
    takes_orders: bool,
    // Parts of the element that is being read.
    soh: Short<u8, 7>,
    kinds: Short<u8, 4>,
    format: Option<u16>,
    controls: Short<u16, 8>,
}

fn left_out(command: u8) -> Reason {
    match command {
        0xf3 => Reason::StructuredField,
        0x20 => Reason::AlternateSize,
        0x02 | 0x03 | 0x12 | 0x13 => Reason::SaveRestore,
        0x23 => Reason::Roll,
        0x21 | 0x22 => Reason::ErrorCode,
        0x62 | 0x64 | 0x66 | 0x68 | 0x6a | 0x6c => Reason::ReadScreen,
        0x72 | 0x83 => Reason::ReadImmediate,
        _ => Reason::UnknownCommand,
    }
}

impl Commands {
    /// The first byte of an element that is no byte for a cell.
    fn begin(&self, byte: u8) -> Result<Phase, Reason> {
        if byte == 0x04 {
            return Ok(Phase::Command);
        }
        if !self.takes_orders {
            return Err(Reason::NoEscape);
        }
        match byte {
            0x01 => Ok(Phase::SohLength),
            0x02 => Ok(Phase::Row(Order::Ra)),
            0x03 => Ok(Phase::Row(Order::Ea)),
            0x11 => Ok(Phase::Row(Order::Sba)),
            0x13 => Ok(Phase::Row(Order::Ic)),
            0x14 => Ok(Phase::Row(Order::Mc)),
            0x1d => Ok(Phase::FieldFirst),
            0x10 => Err(Reason::TransparentData),
            0x12 => Err(Reason::ExtendedAttribute),
            _ => Err(Reason::DisplayStructuredField),
        }
    }
}

impl Body for Commands {
    type Unit = Element;

    fn new() -> Self {
        Commands {
            phase: Phase::Begin,
            takes_orders: false,
            soh: Short::new(),
            kinds: Short::new(),
            format: None,
            controls: Short::new(),
        }
    }

    fn is_between(&self) -> bool {
        matches!(self.phase, Phase::Begin)
    }

    #[inline(always)]
    fn take(&mut self, byte: u8, units: &mut Vec<Element>) -> Result<(), Reason> {
        let mut done = |element| {
            units.push(element);
            Phase::Begin
        };
        self.phase = match self.phase {
            Phase::Begin if self.takes_orders && !is_order(byte) => done(Element::Put(byte)),
            Phase::Begin => self.begin(byte)?,
            Phase::Command => match byte {
                0x40 | 0x50 => {
                    self.takes_orders = false;
                    done(if byte == 0x40 { Element::ClearUnit } else { Element::ClearFormat })
                }
                0x11 => Phase::FirstControl(Control::Write),
                0x42 => Phase::FirstControl(Control::ReadInput),
                0x52 => Phase::FirstControl(Control::ReadMdt),
                0x82 => Phase::FirstControl(Control::ReadMdtAlternate),
                _ => return Err(left_out(byte)),
            },
            Phase::FirstControl(command) => Phase::SecondControl(command, byte),
            Phase::SecondControl(command, cc1) => {
                self.takes_orders = matches!(command, Control::Write);
                done(Element::Control { command, cc1, cc2: byte })
            }
            Phase::SohLength => {
                self.soh.count = 0;
                match byte {
                    0 => done(Element::Soh(self.soh)),
                    1..=7 => Phase::SohByte { length: byte },
                    _ => return Err(Reason::BadSohLength),
                }
            }
            Phase::SohByte { .. } if self.soh.count == 2 && byte != 0 => return Err(Reason::Resequencing),
            Phase::SohByte { length } => {
                self.soh.push(byte);
                if self.soh.count == length {
                    done(Element::Soh(self.soh))
                } else {
                    self.phase
                }
            }
            Phase::Row(order) => Phase::Column(order, row(byte)?),
            Phase::Column(order, row) => {
                let to = address(row, byte)?;
                match order {
                    Order::Ra => Phase::RepeatByte(to),
                    Order::Ea => Phase::EraseLength(to),
                    Order::Sba | Order::Ic | Order::Mc => done(Element::Address { order, to }),
                }
            }
            Phase::RepeatByte(_) if is_order(byte) => return Err(Reason::BadRepeat),
            Phase::RepeatByte(to) => done(Element::Ra { to, byte }),
            Phase::EraseLength(to) => {
                self.kinds.count = 0;
                match byte {
                    2..=5 => Phase::EraseKind { to, count: byte - 1 },
                    _ => return Err(Reason::BadEraseList),
                }
            }
            Phase::EraseKind { .. } if byte != 0x00 && byte != 0xff => return Err(Reason::BadEraseList),
            Phase::EraseKind { to, count } => {
                self.kinds.push(byte);
                if self.kinds.count == count {
                    done(Element::Ea { to, kinds: self.kinds })
                } else {
                    self.phase
                }
            }
            Phase::FieldFirst => {
                self.format = None;
                self.controls.count = 0;
                match byte {
                    0x20..=0x3f => Phase::LengthHigh { attribute: byte },
                    0x40..=0x7f if matches!(byte & 7, 4 | 6) => return Err(Reason::LeftOutShift),
                    0x40..=0x7f => Phase::FormatLow(byte),
                    _ => return Err(Reason::BadFormatByte),
                }
            }
            Phase::FormatLow(high) => {
                self.format = Some(word(high, byte));
                Phase::FieldNext
            }
            Phase::FieldNext => match byte {
                0x20..=0x3f => Phase::LengthHigh { attribute: byte },
                0x80..=0xff if self.controls.count == 8 => return Err(Reason::TooManyFcws),
                0x80..=0xff => Phase::ControlLow(byte),
                _ => return Err(Reason::BadFormatByte),
            },
            Phase::ControlLow(high) => {
                self.controls.push(word(high, byte));
                Phase::FieldNext
            }
            Phase::LengthHigh { attribute } => Phase::LengthLow { attribute, high: byte },
            Phase::LengthLow { attribute, high } => {
                let (length, format, controls) = (word(high, byte), self.format, self.controls);
                done(Element::Sf { attribute, format, length, controls })
            }
        };
        Ok(())
    }
}

// ---- A station's answer ----

#[derive(Clone, Copy, Debug)]
#[allow(dead_code)]
enum Part {
    Head { cursor: Address, aid: u8 },
    Byte(u8),
    At(Address),
}

#[derive(Clone, Copy, Debug)]
enum Answers {
    HeadRow,
    HeadColumn(u8),
    HeadAid(Address),
    Part,
    AtRow,
    AtColumn(u8),
}

impl Body for Answers {
    type Unit = Part;

    fn new() -> Self {
        Answers::HeadRow
    }

    fn is_between(&self) -> bool {
        matches!(self, Answers::HeadRow | Answers::Part)
    }

    #[inline(always)]
    fn take(&mut self, byte: u8, units: &mut Vec<Part>) -> Result<(), Reason> {
        *self = match *self {
            Answers::HeadRow => Answers::HeadColumn(row(byte)?),
            Answers::HeadColumn(row) => Answers::HeadAid(address(row, byte)?),
            Answers::HeadAid(cursor) => match byte {
                0x31..=0x3c | 0xb1..=0xbd | 0xf1 | 0xf3..=0xf6 | 0xf8 => {
                    units.push(Part::Head { cursor, aid: byte });
                    Answers::Part
                }
                _ => return Err(Reason::BadAid),
            },
            Answers::Part if byte == 0x11 => Answers::AtRow,
            Answers::Part if is_order(byte) => return Err(Reason::BadAnswerByte),
            Answers::Part => {
                units.push(Part::Byte(byte));
                Answers::Part
            }
            Answers::AtRow => Answers::AtColumn(row(byte)?),
            Answers::AtColumn(row) => {
                units.push(Part::At(address(row, byte)?));
                Answers::Part
            }
        };
        Ok(())
    }
}

// ---- The stream ----

#[derive(Clone, Copy, Debug)]
enum Token {
    Begin,
    Iac,
    Option(Verb),
    SubOption,
    SubData,
    SubIac,
}

struct Refusal {
    place: u64,
    reason: Reason,
}

struct Decoder<B: Body> {
    taken: u64,
    token: Token,
    sub_option: u8,
    sub: Short<u8, 64>,
    /// How many bytes of the open record's header were taken.
    header: u8,
    length: u16,
    flags: u16,
    opcode: Opcode,
    /// How many bytes the open record's body still has, once the header is whole.
    left: u16,
    body: B,
    units: Vec<B::Unit>,
}

impl<B: Body> Decoder<B> {
    fn new() -> Self {
        Decoder {
            taken: 0,
            token: Token::Begin,
            sub_option: 0,
            sub: Short::new(),
            header: 0,
            length: 0,
            flags: 0,
            opcode: Opcode::NoOperation,
            left: 0,
            body: B::new(),
            units: Vec::new(),
        }
    }

    /// Takes all bytes, and hands out each item that is complete.
    fn feed(&mut self, bytes: &[u8], mut on_item: impl FnMut(Item<B::Unit>)) -> Result<(), Refusal> {
        for (at, &byte) in bytes.iter().enumerate() {
            let done = match self.token {
                Token::Begin if byte != IAC => self.take_data(byte),
                _ => match self.take_token(byte) {
                    Ok(Some(item)) => {
                        on_item(item);
                        Ok(())
                    }
                    Ok(None) => Ok(()),
                    Err(reason) => Err(reason),
                },
            };
            if let Err(reason) = done {
                return Err(Refusal { place: self.taken + at as u64, reason });
            }
        }
        self.taken += bytes.len() as u64;
        Ok(())
    }

    /// Whether the stream may end here.
    fn is_between(&self) -> bool {
        matches!(self.token, Token::Begin) && self.header == 0
    }

    /// A byte of a token that isn't a data byte by itself.
    fn take_token(&mut self, byte: u8) -> Result<Option<Item<B::Unit>>, Reason> {
        match self.token {
            Token::Begin => self.token = Token::Iac,
            Token::Iac => return self.take_command(byte),
            Token::Option(verb) => {
                self.token = Token::Begin;
                return Ok(Some(Item::Telnet(Telnet::Option(verb, byte))));
            }
            Token::SubOption => {
                self.sub_option = byte;
                self.sub.count = 0;
                self.token = Token::SubData;
            }
            Token::SubData if byte == IAC => self.token = Token::SubIac,
            Token::SubData => self.take_sub_data(byte)?,
            Token::SubIac => match byte {
                0xf0 => {
                    self.token = Token::Begin;
                    let data = self.sub.values[..self.sub.len()].into();
                    return Ok(Some(Item::Telnet(Telnet::Sub { option: self.sub_option, data })));
                }
                IAC => {
                    self.take_sub_data(byte)?;
                    self.token = Token::SubData;
                }
                _ => return Err(Reason::BadSub),
            },
        }
        Ok(None)
    }

    fn take_sub_data(&mut self, byte: u8) -> Result<(), Reason> {
        if self.sub.len() == 64 {
            return Err(Reason::SubTooLong);
        }
        self.sub.push(byte);
        Ok(())
    }

    /// The byte after an FF.
    fn take_command(&mut self, byte: u8) -> Result<Option<Item<B::Unit>>, Reason> {
        self.token = match byte {
            0xfa => Token::SubOption,
            0xfb => Token::Option(Verb::Will),
            0xfc => Token::Option(Verb::Wont),
            0xfd => Token::Option(Verb::Do),
            0xfe => Token::Option(Verb::Dont),
            _ => Token::Begin,
        };
        match byte {
            IAC => self.take_data(byte).map(|()| None),
            0xef => self.end_record().map(Some),
            0xf1..=0xf9 => Ok(Some(Item::Telnet(Telnet::Command(byte)))),
            0xfa..=0xfe => Ok(None),
            0xf0 => Err(Reason::StraySe),
            _ => Err(Reason::BadCommand),
        }
    }

    /// A byte of a record.
    #[inline(always)]
    fn take_data(&mut self, byte: u8) -> Result<(), Reason> {
        if self.header < 10 {
            return self.take_header(byte);
        }
        if self.left == 0 {
            return Err(Reason::TooLong);
        }
        self.left -= 1;
        self.body.take(byte, &mut self.units)
    }

    fn take_header(&mut self, byte: u8) -> Result<(), Reason> {
        match self.header {
            0 => self.length = word(byte, 0),
            1 => {
                self.length |= u16::from(byte);
                if self.length < 10 {
                    return Err(Reason::LengthBelowHeader);
                }
            }
            2 if byte != 0x12 => return Err(Reason::BadType),
            3 if byte != 0xa0 => return Err(Reason::BadType),
            4 | 5 if byte != 0x00 => return Err(Reason::BadReserved),
            6 if byte != 0x04 => return Err(Reason::BadVariableLength),
            7 => self.flags = word(byte, 0),
            8 => self.flags |= u16::from(byte),
            9 => {
                self.opcode = Opcode::from_byte(byte).ok_or(Reason::UnknownOpcode)?;
                self.left = self.length - 10;
                self.body = B::new();
            }
            _ => {}
        }
        self.header += 1;
        Ok(())
    }

    fn end_record(&mut self) -> Result<Item<B::Unit>, Reason> {
        if self.header < 10 || self.left > 0 {
            return Err(Reason::TooShort);
        }
        if !self.body.is_between() {
            return Err(Reason::EndedInside);
        }
        self.header = 0;
        let body = std::mem::take(&mut self.units);
        Ok(Item::Record(Record { flags: self.flags, opcode: self.opcode, body }))
    }
}

// ---- The program ----

const BLANK: u8 = 0x40;
const NO_DIGIT: u8 = 0x80;

/// The digit that each character is.
const DIGITS: [u8; 256] = {
    let mut digits = [NO_DIGIT; 256];
    let mut value = 0;
    while value < 16 {
        digits[b"0123456789abcdef"[value] as usize] = value as u8;
        digits[b"0123456789ABCDEF"[value] as usize] = value as u8;
        value += 1;
    }
    digits[b' ' as usize] = BLANK;
    digits[b'\t' as usize] = BLANK;
    digits[b'\r' as usize] = BLANK;
    digits[b'\n' as usize] = BLANK;
    digits
};

fn hex_bytes(text: &[u8]) -> Option<Vec<u8>> {
    let mut bytes = Vec::with_capacity(text.len() / 2);
    let mut digits = text.iter().map(|&c| DIGITS[usize::from(c)]).filter(|&digit| digit != BLANK);
    while let Some(high) = digits.next() {
        let low = digits.next()?;
        if (high | low) >= 16 {
            return None;
        }
        bytes.push(high << 4 | low);
    }
    Some(bytes)
}

struct Asked {
    answers: bool,
    keep: bool,
    cut: usize,
    file: Option<String>,
}

fn read_words() -> Option<Asked> {
    let mut asked = Asked { answers: false, keep: false, cut: 65_535, file: None };
    let mut words = std::env::args().skip(1);
    while let Some(word) = words.next() {
        match word.as_str() {
            "--answers" => asked.answers = true,
            "--keep" => asked.keep = true,
            "--cut" => asked.cut = words.next()?.parse().ok().filter(|cut| (1..=65_535).contains(cut))?,
            _ => asked.file = Some(word),
        }
    }
    Some(asked)
}

/// Prints what holds of the bytes: true where they are accepted.
fn check<B: Body>(bytes: &[u8], asked: &Asked) -> bool {
    let mut decoder = Decoder::<B>::new();
    let (mut records, mut commands) = (0u64, 0u64);
    let mut kept = Vec::new();
    for piece in bytes.chunks(asked.cut) {
        let fed = decoder.feed(piece, |item| {
            match item {
                Item::Record(_) => records += 1,
                Item::Telnet(_) => commands += 1,
            }
            if asked.keep {
                kept.push(item);
            }
        });
        if let Err(Refusal { place, reason }) = fed {
            println!("refused at {place}: reason {} {reason:?}", reason as u8);
            return false;
        }
    }
    if decoder.is_between() {
        println!("accepted: {records} records, {commands} commands, {} bytes", bytes.len());
    } else {
        println!("truncated at {}", bytes.len());
    }
    decoder.is_between()
}

fn fault(text: &str) -> ExitCode {
    eprintln!("{text}");
    ExitCode::from(2)
}

fn main() -> ExitCode {
    let Some(asked) = read_words() else {
        return fault("usage: plain_decoder [--answers] [--cut N] [--keep] [FILE]");
    };
    let mut text = Vec::new();
    let read = match &asked.file {
        Some(path) => std::fs::read(path).map(|all| text = all),
        None => std::io::stdin().read_to_end(&mut text).map(drop),
    };
    if read.is_err() {
        return fault("cannot read");
    }
    let Some(bytes) = hex_bytes(&text) else {
        return fault("not hex");
    };
    let accepted = if asked.answers { check::<Answers>(&bytes, &asked) } else { check::<Commands>(&bytes, &asked) };
    ExitCode::from(u8::from(!accepted))
}
