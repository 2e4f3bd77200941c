//! Writes input lines for the settlement unit to standard output. The same seed, mix and count give
//! the same bytes.
//!
//!     generate [--frames N] [--seed S] [--mix mixed|clean]
//!
//! `clean` has well-formed lines only: pay in, pay out, tell, terms, trade, consent and cancel,
//! with fields within their range, at its ends and beyond it, in capital and small letters.
//! `mixed`, the default, has such frames with 8 damaged lines in every 100 on average, and its last
//! line has no line end. N is one million by default, the seed 1.
//!
//! The writer follows what the accounts hold, which terms are set and which movements are on the
//! book, only to choose amounts near what an account holds and near what a kind still has room for,
//! numbers that are on the book, and participants that have a duty there. What the right answer is,
//! it does not say.

use std::env;
use std::io::{self, BufWriter, Write};
use std::process::ExitCode;

const KINDS: [usize; 2] = [4, 2];
const ACCOUNTS: usize = 8;
const MOST_MOVED: u64 = 1_000_000_000_000;
const MOST_HELD: u64 = 1_000_000_000_000_000;
const MOST_DIGITS: usize = 76;
const MEMBERS: usize = 16;
const CATEGORIES: [u8; 5] = *b"COMI-";
const MAIN: usize = 4;
const MOST_MOVEMENTS: usize = 128;
/// The codes that are offered, each with the bytes of its frame.
const CODES: [(u8, usize); 7] = [
    (0x01, 12),
    (0x02, 12),
    (0x03, 5),
    (0x04, 38),
    (0x05, 6),
    (0x06, 5),
    (0x0A, 4),
];

/// Every kind is mostly paid in for so many frames that pay or tell, then mostly paid out for as
/// many, and so on: long enough to come to the most that may be held, and back to nothing.
const TIDE: u64 = 100_000;
/// There are mostly trades for so many frames, then mostly cancels for as many, and so on: long
/// enough to fill the book, and to empty it.
const BOOK_TIDE: u64 = 2000;

/// Amounts at the ends of the range and of the usual widths of numbers.
const EDGES: [u64; 20] = [
    0,
    1,
    2,
    0x7F,
    0x80,
    0xFF,
    0x100,
    0xFFFF_FFFF,
    0x1_0000_0000,
    MOST_MOVED - 1,
    MOST_MOVED,
    MOST_MOVED + 1,
    MOST_HELD - 1,
    MOST_HELD,
    MOST_HELD + 1,
    i64::MAX as u64,
    i64::MAX as u64 + 1,
    u64::MAX - MOST_HELD,
    u64::MAX - 1,
    u64::MAX,
];

/// What each field may not be; many stand next to what it may be.
const NO_KIND: [u8; 6] = [4, 5, 8, 0x7F, 0x80, 0xFF];
const NO_CURRENCY: [u8; 6] = [2, 3, 4, 0x7F, 0x80, 0xFF];
const NO_AMOUNT: [u64; 9] = [
    0,
    MOST_MOVED + 1,
    MOST_MOVED + 0x100,
    MOST_HELD,
    i64::MAX as u64,
    i64::MAX as u64 + 1,
    0x8000_0000_0000_0001,
    u64::MAX - MOST_MOVED,
    u64::MAX,
];
const NO_CLASS: &[u8] = b"BEcd \0-1\x7F\x80\xC3\xC4\xFF";
const NO_DAY: [u16; 8] = [31, 32, 0xFF, 0x100, 0x1E00, 0x7FFF, 0x8000, 0xFFFF];
const NO_MEMBER: [u8; 8] = [0, 17, 18, 32, 0x7F, 0x80, 0x81, 0xFF];
const NO_CATEGORY: &[u8] = b"comiABDHJLNP,. \0_\x7F\x80\xAD\xC3\xFF";
const NO_PARTICIPANT: [u8; 7] = [0, 8, 9, 16, 0x7F, 0x80, 0xFF];
/// Neither blank nor a known letter with three digits.
const NO_CLEARING: [&[u8; 4]; 20] = [
    b"v001",
    b"U001",
    b"W001",
    b"A001",
    b" 001",
    b"0001",
    b"V   ",
    b"V01 ",
    b"V 01",
    b"V/01",
    b"V0:1",
    b"V00A",
    b"V+01",
    b"V-01",
    b"R0x1",
    b"   V",
    b"   \0",
    b"\0\0\0\0",
    b"V00\xB1",
    b"\xFF\xFF\xFF\xFF",
];
/// Another letter than V, and a number that need not be a participant.
const NO_LETTER: [&[u8; 4]; 6] = [b"R001", b"R007", b"T002", b"R000", b"T008", b"T999"];
/// No participant; some are one in their lowest byte.
const NO_CLEARER: [&[u8; 4]; 9] = [
    b"V000", b"V008", b"V009", b"V010", b"V070", b"V100", b"V257", b"V263", b"V999",
];
/// Where a number comes to another width; the writer leads the numbers over each of these.
const BORDERS: [u32; 4] = [1 << 8, 1 << 16, 1 << 24, 1 << 31];

/// Numbers from a seed (the splitmix64 sequence).
struct Dice(u64);

impl Dice {
    fn number(&mut self) -> u64 {
        self.0 = self.0.wrapping_add(0x9E37_79B9_7F4A_7C15);
        let mut z = self.0;
        z = (z ^ (z >> 30)).wrapping_mul(0xBF58_476D_1CE4_E5B9);
        z = (z ^ (z >> 27)).wrapping_mul(0x94D0_49BB_1331_11EB);
        z ^ (z >> 31)
    }

    /// A number below `limit`.
    fn below(&mut self, limit: u64) -> u64 {
        ((u128::from(self.number()) * u128::from(limit)) >> 64) as u64
    }

    fn index(&mut self, limit: usize) -> usize {
        self.below(limit as u64) as usize
    }

    fn byte(&mut self) -> u8 {
        self.number() as u8
    }

    /// True in `share` of 100 cases.
    fn percent(&mut self, share: u64) -> bool {
        self.below(100) < share
    }

    fn pick<T: Copy>(&mut self, from: &[T]) -> T {
        from[self.index(from.len())]
    }

    /// A quantity or a sum that a trade may have.
    fn traded(&mut self) -> u64 {
        match self.below(10) {
            0 => self.pick(&[1, 2, 0xFF, 0x100, 0x1_0000_0000, MOST_MOVED - 1, MOST_MOVED]),
            1..5 => 1 + self.below(1000),
            _ => 1 + self.below(MOST_MOVED),
        }
    }
}

#[derive(Clone, Copy)]
struct Movement {
    number: u32,
    giver: u8,
    payer: u8,
}

/// What the frames written so far have come to.
#[derive(Clone, Default)]
struct State {
    /// What the accounts hold, by side, kind and account.
    held: [[[u64; ACCOUNTS]; 4]; 2],
    /// The securities and the cash custodian, by member, the first one at 0, and category.
    terms: [[Option<[u8; 2]>; 5]; MEMBERS],
    book: Vec<Movement>,
    /// The highest number of a trade.
    highest: u32,
    /// The number of the last movement that left the book.
    gone: u32,
}

impl State {
    fn custodians(&self, member: usize, category: usize) -> Option<[u8; 2]> {
        let terms = &self.terms[member];
        terms[category].or(terms[MAIN])
    }
}

struct Generator {
    dice: Dice,
    state: State,
    /// Which terms are ever set, by member and category. The others are never, so that a trade has
    /// to fall back on the main ones, or finds none, to the end.
    settable: [[bool; 5]; MEMBERS],
    /// How many frames have been written, and how many of them pay or tell.
    written: u64,
    paid: u64,
}

impl Generator {
    fn new(seed: u64) -> Self {
        let mut dice = Dice(seed);
        let settable = std::array::from_fn(|_| std::array::from_fn(|_| dice.percent(75)));
        Generator {
            dice,
            state: State::default(),
            settable,
            written: 0,
            paid: 0,
        }
    }

    /// A well-formed frame, in bytes.
    fn frame(&mut self) -> Vec<u8> {
        let filling = (self.written / BOOK_TIDE).is_multiple_of(2);
        match (self.dice.below(100), filling) {
            (0..50, _) => self.payment(),
            (50..55, _) => self.terms(),
            (55..70, _) => self.consent(),
            (70..92, true) | (88..100, false) => self.trade(),
            _ => self.cancel(),
        }
    }

    /// Terms that are mostly in order.
    fn terms(&mut self) -> Vec<u8> {
        let (member, category) = loop {
            let (member, category) = (self.dice.index(MEMBERS), self.dice.index(5));
            if self.settable[member][category] {
                break (member, category);
            }
        };
        let custodians = [self.participant(), self.participant()];
        let mut fields = [
            member as u8 + 1,
            CATEGORIES[category],
            custodians[0],
            custodians[1],
        ];
        let before = fields;
        let share = self.share();
        if self.dice.percent(share) {
            fields[0] = self.dice.pick(&NO_MEMBER);
        }
        if self.dice.percent(share) {
            fields[1] = self.dice.pick(NO_CATEGORY);
        }
        for field in &mut fields[2..] {
            if self.dice.percent(share) {
                *field = self.dice.pick(&NO_PARTICIPANT);
            }
        }
        if fields == before {
            self.state.terms[member][category] = Some(custodians);
        }
        [&[0x03], &fields[..]].concat()
    }

    /// A trade that is mostly in order. Its number is above all others as a rule; where the trade
    /// is refused for another reason, the number may be very high, and must not count.
    fn trade(&mut self) -> Vec<u8> {
        let share = self.share();
        let mut refused = self.state.book.len() >= MOST_MOVEMENTS;
        let mut is_wrong = |dice: &mut Dice| {
            let wrong = dice.percent(share);
            refused |= wrong;
            wrong
        };
        let dice = &mut self.dice;

        let is_low = is_wrong(dice);
        let class = if is_wrong(dice) {
            dice.pick(NO_CLASS)
        } else {
            dice.pick(b"CD")
        };
        let security = if is_wrong(dice) {
            dice.pick(&NO_KIND)
        } else {
            dice.below(4) as u8
        };
        let quantity = if is_wrong(dice) {
            dice.pick(&NO_AMOUNT)
        } else {
            dice.traded()
        };
        let currency = if is_wrong(dice) {
            dice.pick(&NO_CURRENCY)
        } else {
            dice.below(2) as u8
        };
        let sum = if is_wrong(dice) {
            dice.pick(&NO_AMOUNT)
        } else {
            dice.traded()
        };
        let day = if is_wrong(dice) {
            dice.pick(&NO_DAY)
        } else if dice.percent(20) {
            dice.pick(&[0, 1, 29, 30])
        } else {
            dice.below(31) as u16
        };
        let (seller, sellers) = self.party(share);
        let (buyer, buyers) = self.party(share);
        let accepted = sellers.zip(buyers).filter(|_| !refused);

        let highest = self.state.highest;
        let number = if is_low {
            let on_book = self.on_book().map_or(0, |movement| movement.number);
            let below = self.dice.below(u64::from(highest) + 1) as u32;
            let lows = [
                0,
                highest,
                highest,
                highest.saturating_sub(1),
                on_book,
                below,
            ];
            self.dice.pick(&lows)
        } else if accepted.is_none() && self.dice.percent(20) {
            self.dice
                .pick(&[i32::MAX as u32, 1 << 31, u32::MAX - 1, u32::MAX])
        } else {
            self.above(highest)
        };
        if let Some(([giver, _], [_, payer])) = accepted {
            self.state.highest = number;
            self.state.book.push(Movement {
                number,
                giver,
                payer,
            });
        }
        [
            &[0x04],
            &number.to_be_bytes()[..],
            &[class, security],
            &quantity.to_be_bytes(),
            &[currency],
            &sum.to_be_bytes(),
            &day.to_be_bytes(),
            &seller,
            &buyer,
        ]
        .concat()
    }

    /// The fields of a seller or a buyer, and its custodians where it is in order.
    fn party(&mut self, share: u64) -> ([u8; 6], Option<[u8; 2]>) {
        let any = self.dice.percent(5);
        let (mut member, mut category) = (self.dice.index(MEMBERS), self.dice.index(5));
        for _ in 0..4 {
            if any || self.state.custodians(member, category).is_some() {
                break;
            }
            (member, category) = (self.dice.index(MEMBERS), self.dice.index(5));
        }
        let mut custodians = self.state.custodians(member, category);
        let mut fields = [
            member as u8 + 1,
            CATEGORIES[category],
            b' ',
            b' ',
            b' ',
            b' ',
        ];
        if self.dice.percent(50) {
            let participant = self.participant();
            custodians = custodians.map(|_| [participant; 2]);
            fields[2..].copy_from_slice(&[b'V', b'0', b'0', b'0' + participant]);
        }
        let dice = &mut self.dice;
        if dice.percent(share) {
            fields[0] = dice.pick(&NO_MEMBER);
            custodians = None;
        }
        if dice.percent(share) {
            fields[1] = dice.pick(NO_CATEGORY);
            custodians = None;
        }
        for wrong in [&NO_CLEARING[..], &NO_LETTER[..], &NO_CLEARER[..]] {
            if dice.percent(share) {
                let wrong: &[u8; 4] = dice.pick(wrong);
                fields[2..].copy_from_slice(wrong);
                custodians = None;
            }
        }
        (fields, custodians)
    }

    /// A consent to a movement on the book, as a rule by one that has a duty there.
    fn consent(&mut self) -> Vec<u8> {
        let other = self.participant();
        let (number, participant) = match self.on_book() {
            Some(movement) if self.dice.percent(90) => {
                let Movement { giver, payer, .. } = movement;
                let participants = [giver, payer, giver, payer, other];
                (movement.number, self.dice.pick(&participants))
            }
            _ => (self.off_book(), other),
        };
        let participant = if self.dice.percent(3) {
            self.dice.pick(&NO_PARTICIPANT)
        } else {
            participant
        };
        [&[0x05], &number.to_be_bytes()[..], &[participant]].concat()
    }

    fn cancel(&mut self) -> Vec<u8> {
        let number = match self.on_book() {
            Some(movement) if self.dice.percent(85) => movement.number,
            _ => self.off_book(),
        };
        let book = &mut self.state.book;
        if let Some(at) = book.iter().position(|movement| movement.number == number) {
            self.state.gone = book.remove(at).number;
        }
        [&[0x06], &number.to_be_bytes()[..]].concat()
    }

    /// Any of the participants.
    fn participant(&mut self) -> u8 {
        1 + self.dice.below(ACCOUNTS as u64 - 1) as u8
    }

    /// In how many of 100 cases each field of a frame is wrong: mostly few, so that the frame is in
    /// order or wrong in one, and now and then many, so that it is wrong in several.
    fn share(&mut self) -> u64 {
        if self.dice.percent(10) { 20 } else { 1 }
    }

    /// A movement on the book: often the newest or the oldest.
    fn on_book(&mut self) -> Option<Movement> {
        let book = &self.state.book;
        match self.dice.below(10) {
            0 => book.last().copied(),
            1 => book.first().copied(),
            _ if book.is_empty() => None,
            _ => Some(self.dice.pick(book)),
        }
    }

    /// A number that is mostly not on the book.
    fn off_book(&mut self) -> u32 {
        let State { highest, gone, .. } = self.state;
        let near = self.on_book().map_or(1, |movement| movement.number);
        let any = self.dice.number() as u32;
        let past = self.dice.below(u64::from(highest) + 1) as u32;
        self.dice.pick(&[
            0,
            1,
            gone,
            gone,
            highest,
            highest.wrapping_add(1),
            near.wrapping_sub(1),
            near.wrapping_add(1),
            near ^ 0x100,
            near ^ 0x8000_0000,
            near.swap_bytes(),
            past,
            any,
            u32::MAX,
        ])
    }

    /// A number above another: mostly the next, at times a leap to where numbers get wider.
    fn above(&mut self, number: u32) -> u32 {
        let step = match self.dice.below(1000) {
            0..900 => 1,
            900..999 => 1 + self.dice.below(300) as u32,
            _ => {
                let border = BORDERS.iter().find(|&&border| border > number);
                border.map_or(1, |border| (border - number).saturating_sub(4).max(1))
            }
        };
        number.saturating_add(step)
    }

    /// A frame that pays in, pays out or tells.
    fn payment(&mut self) -> Vec<u8> {
        let side = self.dice.index(2);
        let kind = self.dice.index(KINDS[side]);
        let account = 1 + self.dice.index(ACCOUNTS - 1);
        let rising = (self.paid / TIDE + kind as u64).is_multiple_of(2);
        self.paid += 1;
        let code = match (self.dice.below(10), rising) {
            (0..5, true) | (5..7, false) => 0x01,
            (5..7, true) | (0..5, false) => 0x02,
            _ => 0x0A,
        };
        let mut place = [side as u8, kind as u8, account as u8];
        if code == 0x0A {
            if self.dice.percent(10) {
                place[2] = 0;
            }
            self.displace(&mut place);
            return [&[code], &place[..]].concat();
        }

        let holdings = &self.state.held[side][kind];
        let most = match code {
            0x01 => MOST_HELD - holdings.iter().sum::<u64>(),
            _ => holdings[account],
        };
        let amount = self.amount(most);
        if !self.displace(&mut place) && (1..=MOST_MOVED.min(most)).contains(&amount) {
            let holding = &mut self.state.held[side][kind][account];
            match code {
                0x01 => *holding += amount,
                _ => *holding -= amount,
            }
        }
        [&[code], &place[..], &amount.to_be_bytes()].concat()
    }

    /// An amount for a frame that may move `most`.
    fn amount(&mut self, most: u64) -> u64 {
        match self.dice.below(100) {
            0..4 => self.dice.pick(&EDGES),
            4..6 => self.dice.number(),
            6..16 if most <= MOST_MOVED => (most + self.dice.below(3)).saturating_sub(1),
            16..26 => 1 + self.dice.below(1000),
            26..36 => 1 + (self.dice.below(MOST_MOVED) >> self.dice.below(40)),
            36..46 => MOST_MOVED,
            _ => 1 + self.dice.below(MOST_MOVED),
        }
    }

    /// Puts some of the fields out of their range, now and then. Tells whether it changed any.
    fn displace(&mut self, place: &mut [u8; 3]) -> bool {
        let before = *place;
        if self.dice.percent(1) {
            *place = [self.dice.byte(), self.dice.byte(), self.dice.byte()];
        }
        if self.dice.percent(2) {
            place[0] = self.dice.pick(&[2, 3, 0x7F, 0x80, 0xFF]);
        }
        if self.dice.percent(2) {
            place[1] = self.dice.pick(&[2, 3, 4, 5, 0x7F, 0x80, 0xFF]);
        }
        if self.dice.percent(2) {
            place[2] = self.dice.pick(&[0, 8, 9, 0x7F, 0x80, 0xFF]);
        }
        *place != before
    }

    /// Bytes in hexadecimal digits: in capital letters, in small ones, or in both.
    fn digits(&mut self, bytes: &[u8]) -> Vec<u8> {
        const CAPITAL: &[u8; 16] = b"0123456789ABCDEF";
        const SMALL: &[u8; 16] = b"0123456789abcdef";
        let letters = match self.dice.below(10) {
            0..5 => 0,
            5..8 => u64::MAX,
            _ => self.dice.number(),
        };
        let nibbles = bytes.iter().flat_map(|byte| [byte >> 4, byte & 15]);
        nibbles
            .enumerate()
            .map(|(at, nibble)| {
                let set = if letters >> (at % 64) & 1 == 0 {
                    CAPITAL
                } else {
                    SMALL
                };
                set[usize::from(nibble)]
            })
            .collect()
    }

    /// A well-formed line.
    fn line(&mut self) -> Vec<u8> {
        let frame = self.frame();
        self.digits(&frame)
    }

    /// A line of digits that tell nothing.
    fn noise(&mut self, count: usize) -> Vec<u8> {
        let bytes: Vec<u8> = (0..count.div_ceil(2)).map(|_| self.dice.byte()).collect();
        let mut line = self.digits(&bytes);
        line.truncate(count);
        line
    }

    /// A line that is refused before the book is asked. It starts from a frame that would have been
    /// in order, so that a program that overlooks the damage goes on with another book.
    fn damaged(&mut self) -> Vec<u8> {
        let before = self.state.clone();
        let mut frame = self.frame();
        self.state = before;
        let mut line = self.digits(&frame);
        let at = self.dice.index(line.len());
        match self.dice.below(10) {
            // An odd count of digits.
            0 => match self.dice.below(3) {
                0 => drop(line.remove(at)),
                1 => line.insert(at, b'0'),
                _ => {
                    let count = 1 + 2 * self.dice.index(MOST_DIGITS / 2 + 2);
                    line = self.noise(count);
                }
            },
            // A character that is no digit; many stand next to the digits and letters.
            1 => line[at] = self.dice.pick(b"/:@G`gOoIlxX-+_.,;#zZ~"),
            // A code that is not offered, in a length of some other code or any.
            2 => {
                while CODES.iter().any(|&(code, _)| code == frame[0]) {
                    frame[0] = if self.dice.percent(50) {
                        self.dice.byte()
                    } else {
                        self.dice.below(16) as u8
                    };
                }
                let length = 1 + self.dice.index(MOST_DIGITS / 2);
                if self.dice.percent(50) {
                    frame.resize(length, 0);
                }
                line = self.digits(&frame);
            }
            // A length that does not fit the code.
            3 => {
                let fitting = frame.len();
                while frame.len() == fitting {
                    let length = match self.dice.below(6) {
                        0 => 1,
                        1 => fitting - 1,
                        2 => fitting + 1,
                        3 => self.dice.pick(&CODES).1,
                        4 => MOST_DIGITS / 2,
                        _ => 1 + self.dice.index(MOST_DIGITS / 2),
                    };
                    frame.resize(length, 1);
                }
                line = self.digits(&frame);
            }
            // An empty line.
            4 => line.clear(),
            // A line that is too long; some are longer than any buffer that is likely.
            5 => {
                let length = match self.dice.below(400) {
                    0 => 60_000 + self.dice.index(100_000),
                    1..100 => MOST_DIGITS + 1,
                    100..200 => MOST_DIGITS + 2,
                    _ => MOST_DIGITS + 1 + self.dice.index(300),
                };
                match self.dice.below(3) {
                    0 => line.resize(length, b'0'),
                    1 => line.resize(length, b' '),
                    _ => line = self.noise(length),
                }
            }
            // A carriage return.
            6 => match self.dice.below(4) {
                0 => line = b"\r".to_vec(),
                1 => line[at] = b'\r',
                _ => line.push(b'\r'),
            },
            // Blanks.
            7 => match self.dice.below(4) {
                0 => line.insert(0, b' '),
                1 => line.push(b' '),
                2 => line[at] = self.dice.pick(b" \t"),
                _ => line = vec![b' '; 1 + self.dice.index(MOST_DIGITS)],
            },
            // One byte that is no text, also one that looks like a digit in its lower bits.
            8 => {
                line[at] = match self.dice.below(3) {
                    0 => line[at] | 0x80,
                    1 => self
                        .dice
                        .pick(&[0x00, 0x1A, 0x0B, 0x0C, 0x7F, 0x80, 0x85, 0xFF]),
                    _ => 0x80 | self.dice.byte(),
                }
            }
            // Any bytes, but a line end.
            _ => {
                let count = 1 + self.dice.index(MOST_DIGITS + 4);
                line = (0..count).map(|_| self.dice.byte()).collect();
                line.retain(|&byte| byte != b'\n');
            }
        }
        line
    }
}

struct Options {
    frames: u64,
    seed: u64,
    mixed: bool,
}

fn options() -> Option<Options> {
    let mut options = Options {
        frames: 1_000_000,
        seed: 1,
        mixed: true,
    };
    let mut words = env::args().skip(1);
    while let Some(word) = words.next() {
        let value = words.next()?;
        match (word.as_str(), value.as_str()) {
            ("--frames", number) => options.frames = number.parse().ok()?,
            ("--seed", number) => options.seed = number.parse().ok()?,
            ("--mix", "mixed") => options.mixed = true,
            ("--mix", "clean") => options.mixed = false,
            _ => return None,
        }
    }
    Some(options)
}

fn write(options: &Options, out: &mut impl Write) -> io::Result<()> {
    let mut generator = Generator::new(options.seed);
    while generator.written < options.frames {
        let last = generator.written + 1 == options.frames;
        let line = if options.mixed && !last && generator.dice.percent(8) {
            generator.damaged()
        } else {
            generator.line()
        };
        out.write_all(&line)?;
        if !(options.mixed && last) {
            out.write_all(b"\n")?;
        }
        generator.written += 1;
    }
    out.flush()
}

fn main() -> ExitCode {
    let Some(options) = options() else {
        eprintln!("usage: generate [--frames N] [--seed S] [--mix mixed|clean]");
        return ExitCode::from(2);
    };
    match write(
        &options,
        &mut BufWriter::with_capacity(1 << 16, io::stdout().lock()),
    ) {
        Ok(()) => ExitCode::SUCCESS,
        Err(error) => {
            eprintln!("generate: {error}");
            ExitCode::FAILURE
        }
    }
}
