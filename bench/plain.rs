//! The settlement unit in plain Rust: it answers the same lines as the program `settle`, and was
//! written from the rules alone. It is what `settle` is compared with, answer by answer and by time.
//!
//! A line of hexadecimal digits on standard input is a frame; each line gets one answer line on
//! standard output. Every field is big-endian.
//!
//!     01 pay in     side 1, kind 1, account 1, amount 8     answer 00
//!     02 pay out    side 1, kind 1, account 1, amount 8     answer 00
//!     03 terms      member 1, category 1, securities custodian 1, cash custodian 1
//!                                                           answer 00
//!     04 trade      number 4, class 1, security 1, quantity 8, currency 1, sum 8, day 2, and
//!                   for the seller, then the buyer: member 1, category 1, clearing field 4
//!                                                           answer 00
//!     05 consent    number 4, participant 1                 answer 00
//!     06 cancel     number 4                                answer 00
//!     0A tell       side 1, kind 1, account 1               answer 00, amount 8
//!
//! A refusal is answered with FF and its number in one byte.
//!
//! To offer another code: give `Request` a case, read its fields in `decode`, and answer it in
//! `Book::answer`.

use std::io::{self, ErrorKind, Read, Write};
use std::process::ExitCode;

const SECURITIES: usize = 4;
const CURRENCIES: usize = 2;
const ACCOUNTS: usize = 8;
const MEMBERS: usize = 16;

/// Client, own, market maker, issuer and main.
const CATEGORIES: [u8; 5] = *b"COMI-";
const MAIN: usize = 4;

/// No call moves on from the morning of day 0 yet.
const TODAY: u16 = 0;
/// A trade is due at most so many days from today.
const MOST_DAYS: u16 = 30;

/// How many movements the book has room for.
const MOST_MOVEMENTS: usize = 128;

/// The most that one frame may move.
const MOST_MOVED: u64 = 1_000_000_000_000;
/// The most that all accounts together may hold of one kind.
const MOST_HELD: u64 = 1_000_000_000_000_000;

/// The longest frame, in bytes and in hexadecimal digits.
const MOST_BYTES: usize = 38;
const MOST_DIGITS: usize = 2 * MOST_BYTES;

/// How much is read at a time.
const BUFFER: usize = 64 * 1024;

/// Why a frame is refused, with the number that is answered.
#[derive(Clone, Copy)]
#[repr(u8)]
enum Refusal {
    Side = 10,
    Kind = 11,
    Account = 12,
    Amount = 13,
    /// The kind's sum would rise above `MOST_HELD`.
    Ceiling = 14,
    /// The account does not hold the amount.
    Holding = 15,
    /// Not above every number accepted so far.
    Number = 20,
    Class = 21,
    Security = 22,
    Quantity = 23,
    Currency = 24,
    Sum = 25,
    Day = 26,
    /// Neither the category nor the main one has terms, or there is no such member.
    Lookup = 27,
    Category = 28,
    Clearing = 29,
    ClearingLetter = 30,
    ClearingNumber = 31,
    /// The book has `MOST_MOVEMENTS` already.
    Room = 32,
    TermsMember = 40,
    TermsCategory = 41,
    TermsCustodian = 42,
    /// No movement with the number is on the book.
    Movement = 50,
    /// The participant has no duty there.
    Duty = 51,
    /// The participant has consented to all its duties there.
    Consented = 52,
    /// No even count of 2 to 76 hexadecimal digits.
    Line = 80,
    Code = 81,
    Length = 82,
}

enum Answer {
    Done,
    Amount(u64),
}

/// The fields that name one amount in the book, as they came.
struct Place {
    side: u8,
    kind: u8,
    account: u8,
}

/// The fields of terms, as they came.
struct Terms {
    member: u8,
    category: u8,
    custodians: Custodians,
}

/// The fields of a trade, as they came.
struct Trade {
    number: u32,
    class: u8,
    security: u8,
    quantity: u64,
    currency: u8,
    sum: u64,
    day: u16,
    seller: Party,
    buyer: Party,
}

struct Party {
    member: u8,
    category: u8,
    clearing: [u8; 4],
}

enum Request {
    PayIn(Place, u64),
    PayOut(Place, u64),
    Terms(Terms),
    Trade(Trade),
    Consent(u32, u8),
    Cancel(u32),
    Tell(Place),
}

/// The participants that act for a party.
#[derive(Clone, Copy)]
struct Custodians {
    securities: u8,
    cash: u8,
}

/// What is kept of an accepted trade; the other fields are not asked again.
struct Movement {
    number: u32,
    /// The giver's and the payer's.
    duties: [Duty; 2],
}

struct Duty {
    participant: u8,
    consented: bool,
}

impl Duty {
    fn of(participant: u8) -> Self {
        Duty {
            participant,
            consented: false,
        }
    }
}

#[derive(Default)]
struct Book {
    /// What every account holds of every kind.
    securities: [[u64; ACCOUNTS]; SECURITIES],
    cash: [[u64; ACCOUNTS]; CURRENCIES],
    /// By member, the first one at 0, and category.
    terms: [[Option<Custodians>; CATEGORIES.len()]; MEMBERS],
    /// In the order of their numbers.
    movements: Vec<Movement>,
    /// The highest number accepted so far.
    highest: u32,
}

impl Book {
    fn answer(&mut self, request: Request) -> Result<Answer, Refusal> {
        match request {
            Request::PayIn(place, amount) => self.pay_in(place, amount),
            Request::PayOut(place, amount) => self.pay_out(place, amount),
            Request::Terms(terms) => self.set_terms(terms),
            Request::Trade(trade) => self.trade(trade),
            Request::Consent(number, participant) => self.consent(number, participant),
            Request::Cancel(number) => self.cancel(number),
            Request::Tell(place) => self.tell(place),
        }
    }

    fn pay_in(&mut self, place: Place, amount: u64) -> Result<Answer, Refusal> {
        let holdings = self.holdings(place.side, place.kind)?;
        let account = client(place.account)?;
        let amount = moved(amount)?;
        if holdings.iter().sum::<u64>() + amount > MOST_HELD {
            return Err(Refusal::Ceiling);
        }
        holdings[account] += amount;
        Ok(Answer::Done)
    }

    fn pay_out(&mut self, place: Place, amount: u64) -> Result<Answer, Refusal> {
        let holdings = self.holdings(place.side, place.kind)?;
        let account = client(place.account)?;
        let amount = moved(amount)?;
        if holdings[account] < amount {
            return Err(Refusal::Holding);
        }
        holdings[account] -= amount;
        Ok(Answer::Done)
    }

    fn set_terms(&mut self, terms: Terms) -> Result<Answer, Refusal> {
        let Terms {
            member,
            category,
            custodians,
        } = terms;
        let member = member_at(member).ok_or(Refusal::TermsMember)?;
        let category = category_at(category).ok_or(Refusal::TermsCategory)?;
        ask(
            is_participant(custodians.securities) && is_participant(custodians.cash),
            Refusal::TermsCustodian,
        )?;
        self.terms[member][category] = Some(custodians);
        Ok(Answer::Done)
    }

    fn trade(&mut self, trade: Trade) -> Result<Answer, Refusal> {
        let amounts = 1..=MOST_MOVED;
        let days = TODAY..=TODAY + MOST_DAYS;
        ask(trade.number > self.highest, Refusal::Number)?;
        ask(matches!(trade.class, b'C' | b'D'), Refusal::Class)?;
        ask(usize::from(trade.security) < SECURITIES, Refusal::Security)?;
        ask(amounts.contains(&trade.quantity), Refusal::Quantity)?;
        ask(usize::from(trade.currency) < CURRENCIES, Refusal::Currency)?;
        ask(amounts.contains(&trade.sum), Refusal::Sum)?;
        ask(days.contains(&trade.day), Refusal::Day)?;
        let seller = self.custodians(&trade.seller)?;
        let buyer = self.custodians(&trade.buyer)?;
        ask(self.movements.len() < MOST_MOVEMENTS, Refusal::Room)?;
        self.highest = trade.number;
        self.movements.push(Movement {
            number: trade.number,
            duties: [Duty::of(seller.securities), Duty::of(buyer.cash)],
        });
        Ok(Answer::Done)
    }

    fn consent(&mut self, number: u32, participant: u8) -> Result<Answer, Refusal> {
        let at = self.find(number)?;
        let (mut has_duty, mut is_new) = (false, false);
        for duty in &mut self.movements[at].duties {
            if duty.participant == participant {
                has_duty = true;
                is_new |= !duty.consented;
                duty.consented = true;
            }
        }
        ask(has_duty, Refusal::Duty)?;
        ask(is_new, Refusal::Consented)?;
        Ok(Answer::Done)
    }

    /// No cancel comes too late, which would be refused with 53: it is still the morning of day 0.
    fn cancel(&mut self, number: u32) -> Result<Answer, Refusal> {
        let at = self.find(number)?;
        self.movements.remove(at);
        Ok(Answer::Done)
    }

    fn tell(&mut self, place: Place) -> Result<Answer, Refusal> {
        let holdings = self.holdings(place.side, place.kind)?;
        let held = holdings
            .get(usize::from(place.account))
            .ok_or(Refusal::Account)?;
        Ok(Answer::Amount(*held))
    }

    /// What the accounts hold of one kind, by account.
    fn holdings(&mut self, side: u8, kind: u8) -> Result<&mut [u64; ACCOUNTS], Refusal> {
        let kinds = match side {
            0 => self.securities.as_mut_slice(),
            1 => self.cash.as_mut_slice(),
            _ => return Err(Refusal::Side),
        };
        kinds.get_mut(usize::from(kind)).ok_or(Refusal::Kind)
    }

    /// Who acts for a party: the participant in its clearing field, or those of its terms.
    fn custodians(&self, party: &Party) -> Result<Custodians, Refusal> {
        let category = category_at(party.category).ok_or(Refusal::Category)?;
        let terms = member_at(party.member)
            .and_then(|member| self.terms[member][category].or(self.terms[member][MAIN]))
            .ok_or(Refusal::Lookup)?;
        Ok(match cleared_by(party.clearing)? {
            Some(participant) => Custodians {
                securities: participant,
                cash: participant,
            },
            None => terms,
        })
    }

    /// Where the movement with a number stands.
    fn find(&self, number: u32) -> Result<usize, Refusal> {
        self.movements
            .iter()
            .position(|movement| movement.number == number)
            .ok_or(Refusal::Movement)
    }
}

/// Refuses where the answer to a question is no.
fn ask(answer: bool, refusal: Refusal) -> Result<(), Refusal> {
    if answer { Ok(()) } else { Err(refusal) }
}

/// Where the terms of a member stand.
fn member_at(member: u8) -> Option<usize> {
    let at = usize::from(member).checked_sub(1)?;
    (at < MEMBERS).then_some(at)
}

/// Where the terms of a category stand.
fn category_at(category: u8) -> Option<usize> {
    CATEGORIES.iter().position(|&letter| letter == category)
}

fn is_participant(account: u8) -> bool {
    (1..ACCOUNTS).contains(&usize::from(account))
}

/// The participant that a clearing field names; blanks name none.
fn cleared_by(field: [u8; 4]) -> Result<Option<u8>, Refusal> {
    if field == *b"    " {
        return Ok(None);
    }
    let [letter, digits @ ..] = field;
    let is_known = matches!(letter, b'V' | b'R' | b'T');
    ask(
        is_known && digits.iter().all(u8::is_ascii_digit),
        Refusal::Clearing,
    )?;
    ask(letter == b'V', Refusal::ClearingLetter)?;
    let [hundreds, tens, ones] = digits.map(|digit| u16::from(digit - b'0'));
    u8::try_from(100 * hundreds + 10 * tens + ones)
        .ok()
        .filter(|&participant| is_participant(participant))
        .map(Some)
        .ok_or(Refusal::ClearingNumber)
}

/// An account that may pay in and out: every account but 0.
fn client(account: u8) -> Result<usize, Refusal> {
    ask(is_participant(account), Refusal::Account)?;
    Ok(usize::from(account))
}

/// An amount that one frame may move.
fn moved(amount: u64) -> Result<u64, Refusal> {
    ask((1..=MOST_MOVED).contains(&amount), Refusal::Amount)?;
    Ok(amount)
}

/// Reads a line, without its line end, as a request.
fn decode(line: &[u8]) -> Result<Request, Refusal> {
    let mut bytes = [0; MOST_BYTES];
    let (code, fields) = from_digits(line, &mut bytes)
        .and_then(|frame| frame.split_first())
        .ok_or(Refusal::Line)?;
    let mut fields = Fields(fields);
    let request = match code {
        0x01 => Request::PayIn(fields.place()?, fields.amount()?),
        0x02 => Request::PayOut(fields.place()?, fields.amount()?),
        0x03 => Request::Terms(fields.terms()?),
        0x04 => Request::Trade(fields.trade()?),
        0x05 => Request::Consent(fields.number()?, fields.byte()?),
        0x06 => Request::Cancel(fields.number()?),
        0x0A => Request::Tell(fields.place()?),
        _ => return Err(Refusal::Code),
    };
    fields.end()?;
    Ok(request)
}

/// The fields of a frame that are still to be read.
struct Fields<'a>(&'a [u8]);

impl Fields<'_> {
    fn take<const N: usize>(&mut self) -> Result<[u8; N], Refusal> {
        let (taken, rest) = self.0.split_first_chunk().ok_or(Refusal::Length)?;
        self.0 = rest;
        Ok(*taken)
    }

    fn place(&mut self) -> Result<Place, Refusal> {
        let [side, kind, account] = self.take()?;
        Ok(Place {
            side,
            kind,
            account,
        })
    }

    fn terms(&mut self) -> Result<Terms, Refusal> {
        let [member, category, securities, cash] = self.take()?;
        Ok(Terms {
            member,
            category,
            custodians: Custodians { securities, cash },
        })
    }

    fn trade(&mut self) -> Result<Trade, Refusal> {
        Ok(Trade {
            number: self.number()?,
            class: self.byte()?,
            security: self.byte()?,
            quantity: self.amount()?,
            currency: self.byte()?,
            sum: self.amount()?,
            day: self.take().map(u16::from_be_bytes)?,
            seller: self.party()?,
            buyer: self.party()?,
        })
    }

    fn party(&mut self) -> Result<Party, Refusal> {
        Ok(Party {
            member: self.byte()?,
            category: self.byte()?,
            clearing: self.take()?,
        })
    }

    fn byte(&mut self) -> Result<u8, Refusal> {
        self.take().map(u8::from_be_bytes)
    }

    fn number(&mut self) -> Result<u32, Refusal> {
        self.take().map(u32::from_be_bytes)
    }

    fn amount(&mut self) -> Result<u64, Refusal> {
        self.take().map(u64::from_be_bytes)
    }

    fn end(&self) -> Result<(), Refusal> {
        ask(self.0.is_empty(), Refusal::Length)
    }
}

/// The value of each hexadecimal digit; any other byte has `NO_DIGIT`.
static DIGITS: [u8; 256] = digits();
const NO_DIGIT: u8 = 0xFF;

const fn digits() -> [u8; 256] {
    let mut values = [NO_DIGIT; 256];
    let mut value = 0;
    while value < 16 {
        values[b"0123456789ABCDEF"[value] as usize] = value as u8;
        values[b"0123456789abcdef"[value] as usize] = value as u8;
        value += 1;
    }
    values
}

/// The bytes that a line writes in hexadecimal digits, if it is an even count of digits that fits.
fn from_digits<'a>(line: &[u8], bytes: &'a mut [u8; MOST_BYTES]) -> Option<&'a [u8]> {
    if line.len() > MOST_DIGITS || !line.len().is_multiple_of(2) {
        return None;
    }
    let mut seen = 0;
    for (byte, pair) in bytes.iter_mut().zip(line.chunks_exact(2)) {
        let (high, low) = (DIGITS[usize::from(pair[0])], DIGITS[usize::from(pair[1])]);
        seen |= high | low;
        *byte = high << 4 | low;
    }
    (seen != NO_DIGIT).then(|| &bytes[..line.len() / 2])
}

/// Appends bytes in capital hexadecimal digits.
fn to_digits<const N: usize>(bytes: [u8; N], out: &mut Vec<u8>) {
    const DIGITS: &[u8; 16] = b"0123456789ABCDEF";
    let mut pairs = [[0; 2]; N];
    for (pair, byte) in pairs.iter_mut().zip(bytes) {
        *pair = [
            DIGITS[usize::from(byte >> 4)],
            DIGITS[usize::from(byte & 15)],
        ];
    }
    out.extend_from_slice(pairs.as_flattened());
}

/// Judges one line and appends its answer line.
fn answer(book: &mut Book, line: &[u8], out: &mut Vec<u8>) {
    match decode(line).and_then(|request| book.answer(request)) {
        Ok(Answer::Done) => out.extend_from_slice(b"00"),
        Ok(Answer::Amount(amount)) => {
            out.extend_from_slice(b"00");
            to_digits(amount.to_be_bytes(), out);
        }
        Err(refusal) => to_digits([0xFF, refusal as u8], out),
    }
    out.push(b'\n');
}

/// Answers every line of the input. All that has been read is answered and written before the next
/// read, which may wait.
fn serve(mut input: impl Read, mut output: impl Write) -> io::Result<()> {
    let mut book = Book::default();
    let mut buffer = vec![0; BUFFER];
    let mut answers = Vec::new();
    // The line that has not ended yet stands at the front of the buffer. No more of it is kept than
    // tells that it is too long.
    let mut kept = 0;
    loop {
        let filled = match input.read(&mut buffer[kept..]) {
            Ok(0) => break,
            Ok(read) => kept + read,
            Err(error) if error.kind() == ErrorKind::Interrupted => continue,
            Err(error) => return Err(error),
        };
        let mut rest = &buffer[..filled];
        while let Some(end) = rest.iter().position(|&byte| byte == b'\n') {
            answer(&mut book, &rest[..end], &mut answers);
            rest = &rest[end + 1..];
        }
        kept = rest.len().min(MOST_DIGITS + 1);
        let start = filled - rest.len();
        buffer.copy_within(start..start + kept, 0);

        output.write_all(&answers)?;
        output.flush()?;
        answers.clear();
    }
    if kept > 0 {
        answer(&mut book, &buffer[..kept], &mut answers);
        output.write_all(&answers)?;
        output.flush()?;
    }
    Ok(())
}

fn main() -> ExitCode {
    match serve(io::stdin().lock(), io::stdout().lock()) {
        Ok(()) => ExitCode::SUCCESS,
        Err(error) => {
            eprintln!("plain: {error}");
            ExitCode::FAILURE
        }
    }
}
