//! Netting in plain Rust: which movements of a package settle. It was written from the rule alone,
//! and is what the crate `netting` is compared with, by answer and by time.
//!
//!     netting worst|full TURNS
//!
//! settles the package of the case so many times and prints how many movements settled over all
//! turns, as the program `net_timing` does.
//!
//! A place is one account of one kind, securities before cash. It is short when its amount, with
//! what the package brings it and less what the package takes, is below 0.
//! 1. While a place is short, take the first. Strike the highest-numbered movement of the package
//!    that takes from it without bringing to it.
//! 2. The lowest-numbered struck movement that can rejoin with no place short rejoins. Look again
//!    from the lowest until none can.

use std::hint::black_box;
use std::process::ExitCode;

const MOVEMENTS: usize = 128;
const ACCOUNTS: usize = 32;
const SECURITIES: usize = 16;
const CURRENCIES: usize = 2;
const PLACES: usize = (SECURITIES + CURRENCIES) * ACCOUNTS;

/// The most that a movement moves, and the most that a place holds.
const MOST_MOVED: u64 = 1_000_000_000_000;
const MOST_HELD: u64 = 1_000_000_000_000_000;

/// The accounts that act for a side.
#[derive(Clone, Copy)]
struct Side {
    securities: u8,
    cash: u8,
}

#[derive(Clone, Copy)]
struct Movement {
    number: u32,
    security: u8,
    quantity: u64,
    currency: u8,
    sum: u64,
    day: u16,
    seller: Side,
    buyer: Side,
}

/// An amount that leaves one place and enters another.
#[derive(Clone, Copy)]
struct Leg {
    from: usize,
    to: usize,
    amount: i64,
}

impl Leg {
    fn only_takes(&self, place: usize) -> bool {
        self.from == place && self.to != place && self.amount > 0
    }

    fn covered(&self, sums: &[i64; PLACES]) -> bool {
        self.from == self.to || sums[self.from] >= self.amount
    }
}

impl Movement {
    fn within_limits(&self) -> bool {
        let known =
            |side: &Side| (side.securities as usize) < ACCOUNTS && (side.cash as usize) < ACCOUNTS;
        (self.security as usize) < SECURITIES
            && (self.currency as usize) < CURRENCIES
            && self.quantity <= MOST_MOVED
            && self.sum <= MOST_MOVED
            && known(&self.seller)
            && known(&self.buyer)
    }

    /// The legs of securities and of cash.
    fn legs(&self) -> [Leg; 2] {
        let security = self.security as usize * ACCOUNTS;
        let currency = (SECURITIES + self.currency as usize) * ACCOUNTS;
        [
            Leg {
                from: security + self.seller.securities as usize,
                to: security + self.buyer.securities as usize,
                amount: self.quantity as i64,
            },
            Leg {
                from: currency + self.buyer.cash as usize,
                to: currency + self.seller.cash as usize,
                amount: self.sum as i64,
            },
        ]
    }

    fn only_takes(&self, place: usize) -> bool {
        self.legs().iter().any(|leg| leg.only_takes(place))
    }

    fn covered(&self, sums: &[i64; PLACES]) -> bool {
        self.legs().iter().all(|leg| leg.covered(sums))
    }

    fn enter(&self, sums: &mut [i64; PLACES]) {
        for leg in self.legs() {
            sums[leg.from] -= leg.amount;
            sums[leg.to] += leg.amount;
        }
    }

    fn leave(&self, sums: &mut [i64; PLACES]) {
        for leg in self.legs() {
            sums[leg.from] += leg.amount;
            sums[leg.to] -= leg.amount;
        }
    }
}

/// The first place whose sum is below 0. The accounts of one kind are looked at together, since the
/// sign of all of them or-ed together is found without a branch for each.
fn first_short(sums: &[i64; PLACES]) -> Option<usize> {
    let mut kinds = sums.chunks_exact(ACCOUNTS);
    let kind = kinds.position(|kind| kind.iter().fold(0, |all, sum| all | sum) < 0)?;
    let first = kind * ACCOUNTS;
    (first..first + ACCOUNTS).find(|place| sums[*place] < 0)
}

/// Who settles of the movements that are tried. None where these or the amounts are not within the
/// limits.
#[inline(never)]
fn settling(
    movements: &[Movement],
    tried: &[bool; MOVEMENTS],
    amounts: &[u64; PLACES],
) -> Option<[bool; MOVEMENTS]> {
    if movements.len() > MOVEMENTS
        || !movements.iter().all(Movement::within_limits)
        || !movements
            .windows(2)
            .all(|pair| pair[0].number < pair[1].number)
        || amounts.iter().any(|amount| *amount > MOST_HELD)
    {
        return None;
    }

    // What each place has after posting the package.
    let mut sums = amounts.map(|amount| amount as i64);
    let mut package = *tried;
    for (i, movement) in movements.iter().enumerate() {
        if package[i] {
            movement.enter(&mut sums);
        }
    }

    while let Some(place) = first_short(&sums) {
        let i = (0..movements.len())
            .rev()
            .find(|&i| package[i] && movements[i].only_takes(place))?;
        package[i] = false;
        movements[i].leave(&mut sums);
    }

    while let Some(i) =
        (0..movements.len()).find(|&i| tried[i] && !package[i] && movements[i].covered(&sums))
    {
        package[i] = true;
        movements[i].enter(&mut sums);
    }
    Some(package)
}

/// What a place holds that is not short.
const PLENTY: u64 = 1_000_000;

/// Litas of account 0.
const IDLE: usize = SECURITIES * ACCOUNTS;

type Package = ([Movement; MOVEMENTS], [u64; PLACES]);

fn moving(i: usize, currency: usize, seller: (usize, usize), buyer: (usize, usize)) -> Movement {
    let side = |(securities, cash): (usize, usize)| Side {
        securities: (securities % ACCOUNTS) as u8,
        cash: (cash % ACCOUNTS) as u8,
    };
    Movement {
        number: i as u32 + 1,
        security: (i % SECURITIES) as u8,
        quantity: 10,
        currency: currency as u8,
        sum: 100,
        day: 0,
        seller: side(seller),
        buyer: side(buyer),
    }
}

/// Everyone sells to account 31 for euro, of which it has none: all are struck for the last place,
/// and none can rejoin.
fn worst() -> Package {
    let movements = std::array::from_fn(|i| moving(i, 1, (i % 31, i % 31), (31, 31)));
    let mut amounts = [PLENTY; PLACES];
    amounts[PLACES - 1] = 0;
    (movements, amounts)
}

/// Securities, currencies and accounts are mixed, and nothing is short: all settle.
fn full() -> Package {
    let movements =
        std::array::from_fn(|i| moving(i, i % 2, (7 * i, 3 * i), (7 * i + 5, 3 * i + 11)));
    (movements, [PLENTY; PLACES])
}

fn total((mut movements, mut amounts): Package, turns: u32) -> Option<u64> {
    let mut settled = 0;
    for turn in 0..turns {
        amounts[IDLE] = PLENTY + turn as u64;
        movements[0].day = (turn % 65_536) as u16;
        let package = settling(
            black_box(&movements),
            &[true; MOVEMENTS],
            black_box(&amounts),
        )?;
        settled += package.iter().filter(|mark| **mark).count() as u64;
    }
    black_box(movements[0].day);
    Some(settled)
}

fn main() -> ExitCode {
    let words: Vec<String> = std::env::args().skip(1).collect();
    let [case, turns] = &words[..] else {
        eprintln!("usage: netting worst|full TURNS");
        return ExitCode::FAILURE;
    };
    let package = match case.as_str() {
        "worst" => worst(),
        "full" => full(),
        _ => {
            eprintln!("usage: netting worst|full TURNS");
            return ExitCode::FAILURE;
        }
    };
    let Ok(turns) = turns.parse() else {
        eprintln!("usage: netting worst|full TURNS");
        return ExitCode::FAILURE;
    };
    match total(package, turns) {
        Some(settled) => {
            println!("{case}, turns {turns}, settled {settled}");
            ExitCode::SUCCESS
        }
        None => {
            eprintln!("netting: the package is not within the limits");
            ExitCode::FAILURE
        }
    }
}
