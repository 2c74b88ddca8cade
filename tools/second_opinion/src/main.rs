//! A second opinion on the program `limits`: the same lines in, the same answers out.
//!
//! It is written from the documents alone (docs/RULES.md, docs/REFUSALS.md and docs/FORMATS.md), so
//! that the two can be compared line by line. It needs nothing but the standard library.
//!
//! Every amount fits an `i64`. A multiplier is at most 10^4, a price at most 10^5, a quantity at
//! most 10^4 and a shock at most 10^8, so that a mark stays within 10^13 and quantity × shock within
//! 10^12. Sums run over at most 1,024 trades, which makes a risk at most some 1.3 × 10^16, and a
//! hundred times that some 1.3 × 10^18. Collateral and intraday limits are at most 10^15 each.

use std::fmt;
use std::fs::File;
use std::io::{self, BufRead, BufReader, BufWriter, ErrorKind, Read, Stdin, Stdout, Write};
use std::ops::Range;
use std::process::ExitCode;

const LONGEST_LINE: usize = 4_096;
const MOST_WORDS: usize = 6;

const SMALLEST_FILE: usize = 24;
const LARGEST_FILE: usize = 65_536;
const MOST_SHEETS: usize = 8;
const CONTRACT_NUMBERS: usize = 256;

const MOST_TRADERS: usize = 16;
const MOST_CLIENTS: usize = 128;
const MOST_TRADES: usize = 1_024;
const MOST_SLIPS_STANDING: usize = 32;
const MOST_SLIPS_MADE: u64 = 1_000_000_000;

const MOST_MONEY: i64 = 1_000_000_000_000_000;
const MOST_SETTLEMENT: i64 = 10_000_000_000_000;
const MOST_QUANTITY: u64 = 10_000;
const MOST_PRICE: u64 = 100_000;

/// Why a file or a call is refused. The value is the number in the table of refusals.
#[derive(Clone, Copy, Debug, PartialEq, Eq)]
enum Refusal {
    Length = 1,
    Kind = 2,
    Counts = 3,
    Areas = 4,
    ContractNumbers = 5,
    Field = 6,
    ScenarioZero = 7,
    Unknown = 10,
    Full = 11,
    OutOfRange = 12,
    NoPrice = 13,
    WrongState = 16,
    OtherTrader = 17,
    TooMuchCollateral = 18,
    NotCovered = 19,
    WindowPassed = 20,
}

impl Refusal {
    fn text(self) -> &'static str {
        match self {
            Refusal::Length => {
                "the file is shorter than 24 bytes, longer than 65536, or not as long as it says"
            }
            Refusal::Kind => "the kind of sheet is not 1, 2 or 3",
            Refusal::Counts => "a count of contracts, scenarios or factors is outside its range",
            Refusal::Areas => {
                "an area starts before byte 24, ends past the file or overlaps the other"
            }
            Refusal::ContractNumbers => {
                "a contract number is above 255 or not above the one before"
            }
            Refusal::Field => "a field is outside its range",
            Refusal::ScenarioZero => "a shock of scenario 0 is not zero",
            Refusal::Unknown => "unknown trader, client, trade, holder or contract",
            Refusal::Full => "the table is full",
            Refusal::OutOfRange => "a quantity, price, amount, limit or count is outside its range",
            Refusal::NoPrice => "the contract has no price",
            Refusal::WrongState => "the trade is in the wrong state",
            Refusal::OtherTrader => "the client belongs to another trader",
            Refusal::TooMuchCollateral => "the holder would have too much collateral",
            Refusal::NotCovered => "the withdrawal or cancellation is not covered",
            Refusal::WindowPassed => "the settlement window has passed",
        }
    }
}

impl fmt::Display for Refusal {
    fn fmt(&self, f: &mut fmt::Formatter) -> fmt::Result {
        write!(f, "refused {} {}", *self as u8, self.text())
    }
}

/// `Err(refusal)` unless `holds`.
fn require(holds: bool, refusal: Refusal) -> Result<(), Refusal> {
    if holds {
        Ok(())
    } else {
        Err(refusal)
    }
}

// ---------------------------------------------------------------------------------------------
// Sheets and the model
// ---------------------------------------------------------------------------------------------

#[derive(Clone, Copy, PartialEq, Eq)]
enum Kind {
    Factors,
    Series,
    Strikes,
}

impl Kind {
    fn word(self) -> &'static str {
        match self {
            Kind::Factors => "factors",
            Kind::Series => "series",
            Kind::Strikes => "strikes",
        }
    }
}

/// A sheet as its file says it, with every shock worked out.
struct Sheet {
    kind: Kind,
    scenarios: usize,
    contracts: Vec<Contract>,
    /// One row of shocks for each contract, one after the other.
    shocks: Vec<i32>,
}

struct Contract {
    number: u8,
    multiplier: i64,
}

fn u16_at(bytes: &[u8], at: usize) -> u16 {
    u16::from_le_bytes([bytes[at], bytes[at + 1]])
}

fn u32_at(bytes: &[u8], at: usize) -> u32 {
    u32::from_le_bytes([bytes[at], bytes[at + 1], bytes[at + 2], bytes[at + 3]])
}

/// The `i32`s of an area.
fn signed(area: &[u8]) -> impl Iterator<Item = i32> + '_ {
    area.chunks_exact(4)
        .map(|four| i32::from_le_bytes([four[0], four[1], four[2], four[3]]))
}

fn all_within(area: &[u8], bound: i32) -> bool {
    signed(area).all(|number| (-bound..=bound).contains(&number))
}

/// A sum of exposure × factor shock in ten-thousandths, to the nearest centavo, halves away from 0.
fn nearest(total: i64) -> i32 {
    let magnitude = (2 * total.abs() + 10_000) / 20_000;
    (magnitude * total.signum()) as i32
}

impl Sheet {
    /// Reads a file, row by row of the table of refusals.
    fn read(bytes: &[u8]) -> Result<Sheet, Refusal> {
        let length_is_right = (SMALLEST_FILE..=LARGEST_FILE).contains(&bytes.len())
            && u32_at(bytes, 16) as usize == bytes.len();
        require(length_is_right, Refusal::Length)?;

        let kind = match u16_at(bytes, 0) {
            1 => Kind::Factors,
            2 => Kind::Series,
            3 => Kind::Strikes,
            _ => return Err(Refusal::Kind),
        };

        let contracts = usize::from(u16_at(bytes, 2));
        let scenarios = usize::from(u16_at(bytes, 4));
        let factors = usize::from(u16_at(bytes, 6));
        let counts_are_right = match kind {
            Kind::Factors => {
                (1..=64).contains(&contracts)
                    && (1..=64).contains(&scenarios)
                    && (1..=8).contains(&factors)
            }
            Kind::Series => {
                (1..=64).contains(&contracts) && (1..=64).contains(&scenarios) && factors == 0
            }
            Kind::Strikes => {
                (1..=63).contains(&contracts) && scenarios == contracts + 1 && factors == 0
            }
        };
        require(counts_are_right, Refusal::Counts)?;

        let record_size = 4 + 4 * factors;
        let (contract_area, scenario_area) = Self::areas(
            bytes,
            contracts * record_size,
            match kind {
                Kind::Factors => 4 * scenarios * factors,
                Kind::Series => 4 * contracts * scenarios,
                Kind::Strikes => 0,
            },
        )?;
        let records = || contract_area.chunks_exact(record_size);

        let mut lowest = 0;
        for record in records() {
            let number = u16_at(record, 0);
            require((lowest..=255).contains(&number), Refusal::ContractNumbers)?;
            lowest = number + 1;
        }

        let payoff = u32_at(bytes, 20);
        let (payoffs, most_multiplier, most_shock) = match kind {
            Kind::Factors => (0..=0, 10_000, 10_000),
            Kind::Series => (0..=0, 0, 100_000_000),
            Kind::Strikes => (1..=100_000_000, 0, 0),
        };
        let fields_are_right = payoffs.contains(&payoff)
            && records().all(|record| {
                u16_at(record, 2) <= most_multiplier && all_within(&record[4..], 12_500_000)
            })
            && all_within(scenario_area, most_shock);
        require(fields_are_right, Refusal::Field)?;

        let scenario_zero_is_zero = match kind {
            Kind::Factors => signed(&scenario_area[..4 * factors]).all(|shock| shock == 0),
            Kind::Series => signed(scenario_area)
                .step_by(scenarios)
                .all(|shock| shock == 0),
            Kind::Strikes => true,
        };
        require(scenario_zero_is_zero, Refusal::ScenarioZero)?;

        let shocks = match kind {
            Kind::Factors => {
                let rows: Vec<i64> = signed(scenario_area).map(i64::from).collect();
                let mut shocks = Vec::with_capacity(contracts * scenarios);
                for record in records() {
                    shocks.extend(rows.chunks_exact(factors).map(|row| {
                        let products = signed(&record[4..]).zip(row).map(|(e, s)| i64::from(e) * s);
                        nearest(products.sum())
                    }));
                }
                shocks
            }
            Kind::Series => signed(scenario_area).collect(),
            Kind::Strikes => {
                let mut shocks = vec![0; contracts * scenarios];
                for place in 0..contracts {
                    shocks[place * scenarios + place + 1] = payoff as i32;
                }
                shocks
            }
        };
        let contracts = records()
            .map(|record| Contract {
                number: record[0],
                multiplier: i64::from(u16_at(record, 2)),
            })
            .collect();
        Ok(Sheet {
            kind,
            scenarios,
            contracts,
            shocks,
        })
    }

    /// The contract area and the scenario area of a file, of these sizes.
    fn areas(
        bytes: &[u8],
        contract_size: usize,
        scenario_size: usize,
    ) -> Result<(&[u8], &[u8]), Refusal> {
        let area = |offset: u32, size: usize| {
            let start = offset as usize;
            let end = start.checked_add(size).ok_or(Refusal::Areas)?;
            let fits = start >= SMALLEST_FILE && end <= bytes.len();
            require(fits, Refusal::Areas).map(|()| start..end)
        };
        let first = area(u32_at(bytes, 8), contract_size)?;
        let second = area(u32_at(bytes, 12), scenario_size)?;
        let apart = first.is_empty()
            || second.is_empty()
            || first.end <= second.start
            || second.end <= first.start;
        require(apart, Refusal::Areas)?;
        Ok((&bytes[first], &bytes[second]))
    }
}

/// Where a contract lies in the model.
#[derive(Clone)]
struct Place {
    subportfolio: usize,
    multiplier: i64,
    /// Its shocks, among all shocks of the model.
    shocks: Range<usize>,
}

/// The sheets read so far: the sheet in place k is subportfolio k.
#[derive(Default)]
struct Model {
    /// For each subportfolio its scenarios, among all scenarios of the model.
    subportfolios: Vec<Range<usize>>,
    places: Vec<Option<Place>>,
    shocks: Vec<i32>,
}

impl Model {
    fn new() -> Model {
        Model {
            places: vec![None; CONTRACT_NUMBERS],
            ..Model::default()
        }
    }

    fn is_full(&self) -> bool {
        self.subportfolios.len() == MOST_SHEETS
    }

    /// How many scenarios all subportfolios have together.
    fn scenarios(&self) -> usize {
        self.subportfolios.last().map_or(0, |last| last.end)
    }

    /// Adds a sheet, and says in which place. A contract that an earlier sheet knows stays there.
    fn add(&mut self, sheet: &Sheet) -> usize {
        let subportfolio = self.subportfolios.len();
        let first = self.scenarios();
        self.subportfolios.push(first..first + sheet.scenarios);
        for (contract, row) in sheet
            .contracts
            .iter()
            .zip(sheet.shocks.chunks_exact(sheet.scenarios))
        {
            let place = &mut self.places[usize::from(contract.number)];
            if place.is_none() {
                let start = self.shocks.len();
                self.shocks.extend_from_slice(row);
                *place = Some(Place {
                    subportfolio,
                    multiplier: contract.multiplier,
                    shocks: start..self.shocks.len(),
                });
            }
        }
        subportfolio
    }

    fn place(&self, contract: u64) -> Option<&Place> {
        self.places.get(usize::try_from(contract).ok()?)?.as_ref()
    }
}

// ---------------------------------------------------------------------------------------------
// Lines and what they ask
// ---------------------------------------------------------------------------------------------

#[derive(Clone, Copy, PartialEq, Eq)]
enum Side {
    Buy,
    Sell,
}

/// Whose collateral it is. The number is the client's or the trader's.
#[derive(Clone, Copy, PartialEq, Eq)]
enum Holder<Number> {
    Client(Number),
    Trader(Number),
    Member(Number),
}

/// What a trade and a carried position have in common.
#[derive(Clone, Copy)]
struct Deal {
    contract: u64,
    side: Side,
    quantity: u64,
    price: u64,
}

#[derive(Clone, Copy)]
enum Call {
    Trader {
        intraday_limit: i64,
        default_count: i64,
    },
    Client {
        trader: u64,
    },
    Carry {
        client: u64,
        deal: Deal,
    },
    Price {
        contract: u64,
        price: u64,
    },
    Deposit {
        holder: Holder<u64>,
        amount: i64,
    },
    Open,
    Trade {
        trader: u64,
        deal: Deal,
    },
    Specify {
        trade: u64,
        client: u64,
    },
    Cancel {
        trade: u64,
    },
    Withdraw {
        holder: Holder<u64>,
        amount: i64,
    },
    Settle {
        serial: u64,
    },
    PutBack {
        serial: u64,
    },
    Cash {
        client: u64,
        amount: i64,
    },
    Window,
    Statement {
        trader: u64,
    },
}

#[derive(Clone, Copy, PartialEq, Eq)]
enum Time {
    Preparation,
    Both,
    Session,
}

impl Call {
    fn time(&self) -> Time {
        match self {
            Call::Trader { .. } | Call::Client { .. } | Call::Carry { .. } | Call::Open => {
                Time::Preparation
            }
            Call::Price { .. } | Call::Deposit { .. } => Time::Both,
            _ => Time::Session,
        }
    }
}

/// What a readable line asks.
enum Order<'line> {
    Nothing,
    Sheet(&'line str),
    /// The number, where it fits 64 bits.
    Contract(Option<u64>),
    Call(Call),
}

/// The value of a word of decimal digits. Absent if it has none or another byte; the inner one is
/// absent if the number does not fit 64 bits.
fn digits(word: &str) -> Option<Option<u64>> {
    let all_digits = !word.is_empty() && word.bytes().all(|byte| byte.is_ascii_digit());
    all_digits.then(|| word.parse().ok())
}

fn number(word: &str) -> Option<u64> {
    digits(word)?
}

fn amount(word: &str) -> Option<i64> {
    match word.strip_prefix('-') {
        Some(rest) => 0i64.checked_sub_unsigned(number(rest)?),
        None => i64::try_from(number(word)?).ok(),
    }
}

fn holder(kind: &str, word: &str) -> Option<Holder<u64>> {
    let number = number(word)?;
    match kind {
        "client" => Some(Holder::Client(number)),
        "trader" => Some(Holder::Trader(number)),
        "member" => Some(Holder::Member(number)),
        _ => None,
    }
}

fn deal(contract: &str, side: &str, quantity: &str, price: &str) -> Option<Deal> {
    let side = match side {
        "buy" => Side::Buy,
        "sell" => Side::Sell,
        _ => return None,
    };
    Some(Deal {
        contract: number(contract)?,
        side,
        quantity: number(quantity)?,
        price: number(price)?,
    })
}

/// What the line asks; absent if it is not a line of this program.
fn order(line: &[u8]) -> Option<Order<'_>> {
    let line = std::str::from_utf8(line).ok()?;
    if line.starts_with('#') {
        return Some(Order::Nothing);
    }
    let mut words = [""; MOST_WORDS];
    let mut count = 0;
    for word in line.split(' ').filter(|word| !word.is_empty()) {
        *words.get_mut(count)? = word;
        count += 1;
    }
    let call = match words[..count] {
        [] => return Some(Order::Nothing),
        ["sheet", path] => return Some(Order::Sheet(path)),
        ["contract", contract] => return Some(Order::Contract(digits(contract)?)),
        ["trader", limit, count] => Call::Trader {
            intraday_limit: amount(limit)?,
            default_count: amount(count)?,
        },
        ["client", trader] => Call::Client {
            trader: number(trader)?,
        },
        ["carry", client, contract, side, quantity, price] => Call::Carry {
            client: number(client)?,
            deal: deal(contract, side, quantity, price)?,
        },
        ["price", contract, price] => Call::Price {
            contract: number(contract)?,
            price: number(price)?,
        },
        ["deposit", kind, of, money] => Call::Deposit {
            holder: holder(kind, of)?,
            amount: amount(money)?,
        },
        ["open"] => Call::Open,
        ["trade", trader, contract, side, quantity, price] => Call::Trade {
            trader: number(trader)?,
            deal: deal(contract, side, quantity, price)?,
        },
        ["specify", trade, client] => Call::Specify {
            trade: number(trade)?,
            client: number(client)?,
        },
        ["cancel", trade] => Call::Cancel {
            trade: number(trade)?,
        },
        ["withdraw", kind, of, money] => Call::Withdraw {
            holder: holder(kind, of)?,
            amount: amount(money)?,
        },
        ["settle", serial] => Call::Settle {
            serial: number(serial)?,
        },
        ["putback", serial] => Call::PutBack {
            serial: number(serial)?,
        },
        ["cash", client, money] => Call::Cash {
            client: number(client)?,
            amount: amount(money)?,
        },
        ["window"] => Call::Window,
        ["statement", trader] => Call::Statement {
            trader: number(trader)?,
        },
        _ => return None,
    };
    Some(Order::Call(call))
}

// ---------------------------------------------------------------------------------------------
// The ledger
// ---------------------------------------------------------------------------------------------

struct Trader {
    intraday_limit: i64,
    default_count: usize,
    /// By rising number.
    clients: Vec<usize>,
    own_collateral: i64,
    member_collateral: i64,
}

impl Trader {
    fn backing(&self) -> i64 {
        self.intraday_limit + self.own_collateral + self.member_collateral
    }
}

struct Client {
    trader: usize,
    /// Which of its trader's clients it is, from 0.
    rank: usize,
    collateral: i64,
    settlement: i64,
    opening_need: i64,
}

#[derive(Clone, Copy, PartialEq, Eq)]
enum Standing {
    Unspecified,
    Specified(usize),
    Carried(usize),
}

struct Trade {
    trader: usize,
    contract: usize,
    /// Negative for a sale.
    quantity: i64,
    price: i64,
    standing: Standing,
}

struct Slip {
    serial: u64,
    holder: Holder<usize>,
    amount: i64,
}

/// What the accepted calls have entered.
struct Ledger {
    traders: Vec<Trader>,
    clients: Vec<Client>,
    trades: Vec<Trade>,
    /// The market price of each contract, if it has one.
    prices: [Option<i64>; CONTRACT_NUMBERS],
    /// Those that stand, the earliest first.
    slips: Vec<Slip>,
    slips_made: u64,
    window_passed: bool,
}

/// The number of something known as an index into its table.
fn known<T>(table: &[T], number: u64) -> Result<usize, Refusal> {
    usize::try_from(number)
        .ok()
        .filter(|&index| index < table.len())
        .ok_or(Refusal::Unknown)
}

impl Ledger {
    fn new() -> Ledger {
        Ledger {
            traders: Vec::with_capacity(MOST_TRADERS),
            clients: Vec::with_capacity(MOST_CLIENTS),
            trades: Vec::with_capacity(MOST_TRADES),
            prices: [None; CONTRACT_NUMBERS],
            slips: Vec::with_capacity(MOST_SLIPS_STANDING),
            slips_made: 0,
            window_passed: false,
        }
    }

    fn known_holder(&self, holder: Holder<u64>) -> Result<Holder<usize>, Refusal> {
        Ok(match holder {
            Holder::Client(client) => Holder::Client(known(&self.clients, client)?),
            Holder::Trader(trader) => Holder::Trader(known(&self.traders, trader)?),
            Holder::Member(trader) => Holder::Member(known(&self.traders, trader)?),
        })
    }

    fn trader_of(&self, holder: Holder<usize>) -> usize {
        match holder {
            Holder::Client(client) => self.clients[client].trader,
            Holder::Trader(trader) | Holder::Member(trader) => trader,
        }
    }

    fn collateral(&mut self, holder: Holder<usize>) -> &mut i64 {
        match holder {
            Holder::Client(client) => &mut self.clients[client].collateral,
            Holder::Trader(trader) => &mut self.traders[trader].own_collateral,
            Holder::Member(trader) => &mut self.traders[trader].member_collateral,
        }
    }

    fn on_slips(&self, holder: Holder<usize>) -> i64 {
        let of_holder = self.slips.iter().filter(|slip| slip.holder == holder);
        of_holder.map(|slip| slip.amount).sum()
    }

    /// Takes out the slip with this serial, if it stands.
    fn take_slip(&mut self, serial: u64) -> Option<Slip> {
        let at = self.slips.iter().position(|slip| slip.serial == serial)?;
        Some(self.slips.remove(at))
    }
}

// ---------------------------------------------------------------------------------------------
// The figures
// ---------------------------------------------------------------------------------------------

/// The figures of one trader. The vectors keep their room from one time to the next.
#[derive(Default)]
struct Figures {
    clients: Vec<ClientFigures>,
    /// For each client one margin for each subportfolio, one client after the other.
    margins: Vec<i64>,
    specified: i64,
    unspecified: i64,
    backing: i64,
    /// For each client the sum of quantity × shock in every scenario of the model.
    gains: Vec<i64>,
    /// What the losing unspecified trades lose in every scenario of the model.
    losses: Vec<i64>,
    deficits: Vec<i64>,
}

#[derive(Clone, Default)]
struct ClientFigures {
    marks: i64,
    need: i64,
    deficit: i64,
}

impl Figures {
    fn risk(&self) -> i64 {
        self.specified + self.unspecified
    }

    fn limit(&self) -> i64 {
        self.backing - self.risk()
    }

    /// 100 × risk / backing, rounded up; absent if there is a risk and no backing.
    fn utilisation(&self) -> Option<i64> {
        match (self.risk(), self.backing) {
            (0, 0) => Some(0),
            (_, 0) => None,
            (risk, backing) => Some((100 * risk + backing - 1) / backing),
        }
    }

    /// Works out the figures of a trader from what the ledger holds now.
    fn work_out(&mut self, ledger: &Ledger, model: &Model, trader: usize) {
        self.add_up_trades(ledger, model, trader);
        self.work_out_clients(ledger, model, trader);
        let trader = &ledger.traders[trader];
        self.specified = greatest(&mut self.deficits, trader.default_count);
        self.unspecified = model
            .subportfolios
            .iter()
            .map(|scenarios| {
                self.losses[scenarios.clone()]
                    .iter()
                    .copied()
                    .max()
                    .unwrap_or(0)
            })
            .sum();
        self.backing = trader.backing();
    }

    /// One pass over the trades: the marks and gains of the clients, the losses of open trades.
    fn add_up_trades(&mut self, ledger: &Ledger, model: &Model, trader: usize) {
        let scenarios = model.scenarios();
        let clients = ledger.traders[trader].clients.len();
        refill(&mut self.clients, clients, ClientFigures::default());
        refill(&mut self.gains, clients * scenarios, 0);
        refill(&mut self.losses, scenarios, 0);
        for trade in ledger.trades.iter().filter(|trade| trade.trader == trader) {
            let (Some(place), Some(market)) =
                (&model.places[trade.contract], ledger.prices[trade.contract])
            else {
                unreachable!("a trade is entered only in a contract that has a place and a price");
            };
            let quantity = trade.quantity;
            let mark = quantity * place.multiplier * (market - trade.price);
            let shocks = &model.shocks[place.shocks.clone()];
            let columns = model.subportfolios[place.subportfolio].clone();
            match trade.standing {
                Standing::Unspecified => {
                    for (loss, &shock) in self.losses[columns].iter_mut().zip(shocks) {
                        *loss += (-(mark + quantity * i64::from(shock))).max(0);
                    }
                }
                Standing::Specified(client) | Standing::Carried(client) => {
                    let rank = ledger.clients[client].rank;
                    self.clients[rank].marks += mark;
                    let gains = &mut self.gains[rank * scenarios..][columns];
                    for (gain, &shock) in gains.iter_mut().zip(shocks) {
                        *gain += quantity * i64::from(shock);
                    }
                }
            }
        }
    }

    /// The margins, need and deficit of every client, once the trades are added up.
    fn work_out_clients(&mut self, ledger: &Ledger, model: &Model, trader: usize) {
        let scenarios = model.scenarios();
        self.margins.clear();
        self.deficits.clear();
        let numbers = &ledger.traders[trader].clients;
        for (rank, (figures, &number)) in self.clients.iter_mut().zip(numbers).enumerate() {
            let client = &ledger.clients[number];
            let gains = &self.gains[rank * scenarios..][..scenarios];
            let mut margins = 0;
            for columns in &model.subportfolios {
                let least = gains[columns.clone()].iter().copied().min().unwrap_or(0);
                margins -= least;
                self.margins.push(-least);
            }
            figures.need = (margins - figures.marks - client.settlement.min(0)).max(0);
            figures.deficit = (figures.need - client.collateral).max(0);
            self.deficits.push(figures.deficit);
        }
    }

    fn write(&self, ledger: &Ledger, trader: usize, out: &mut impl Write) -> io::Result<()> {
        writeln!(out, "statement {trader}")?;
        let numbers = &ledger.traders[trader].clients;
        let per_client = self.margins.len() / numbers.len().max(1);
        for (rank, (figures, &number)) in self.clients.iter().zip(numbers).enumerate() {
            let collateral = ledger.clients[number].collateral;
            write!(
                out,
                "client {number} need {} collateral {collateral} deficit {} margins",
                figures.need, figures.deficit
            )?;
            for margin in &self.margins[rank * per_client..][..per_client] {
                write!(out, " {margin}")?;
            }
            writeln!(out)?;
        }
        writeln!(out, "specified {}", self.specified)?;
        writeln!(out, "unspecified {}", self.unspecified)?;
        writeln!(out, "risk {}", self.risk())?;
        writeln!(out, "backing {}", self.backing)?;
        let violation = if self.limit() < 0 { " violation" } else { "" };
        writeln!(out, "limit {}{violation}", self.limit())?;
        match self.utilisation() {
            Some(percent) => writeln!(out, "utilisation {percent}")?,
            None => writeln!(out, "utilisation no backing")?,
        }
        writeln!(out, "end")
    }
}

/// Makes the vector so many copies of the value, in the room that it has.
fn refill<T: Clone>(vector: &mut Vec<T>, length: usize, value: T) {
    vector.clear();
    vector.resize(length, value);
}

/// The sum of the so many greatest amounts. Changes their order.
fn greatest(amounts: &mut [i64], count: usize) -> i64 {
    if count < amounts.len() {
        let (front, _, _) = amounts.select_nth_unstable_by(count, |a, b| b.cmp(a));
        front.iter().sum()
    } else {
        amounts.iter().sum()
    }
}

// ---------------------------------------------------------------------------------------------
// The day
// ---------------------------------------------------------------------------------------------

/// What an accepted call answers.
enum Answer {
    Accepted,
    Trader(usize),
    Client(usize),
    Trade(usize),
    Slip(u64),
    /// The figures of this trader, which stand in the day's figures.
    Statement(usize),
}

/// Why a readable line does not belong to its time.
#[derive(Clone, Copy)]
enum Misplaced {
    NotOpen,
    Opened,
    SheetAfterCall,
    NoSuchSlip,
    EightSheets,
}

impl fmt::Display for Misplaced {
    fn fmt(&self, f: &mut fmt::Formatter) -> fmt::Result {
        f.write_str(match self {
            Misplaced::NotOpen => "misplaced the call belongs to the session, which is not open",
            Misplaced::Opened => "misplaced the call belongs to the preparation, which is over",
            Misplaced::SheetAfterCall => "misplaced a sheet is read before the first call",
            Misplaced::NoSuchSlip => "misplaced no such slip is held",
            Misplaced::EightSheets => "misplaced eight sheets are read already",
        })
    }
}

/// Why a call is not carried out.
enum Turned {
    Refused(Refusal),
    Misplaced(Misplaced),
}

impl From<Refusal> for Turned {
    fn from(refusal: Refusal) -> Turned {
        Turned::Refused(refusal)
    }
}

struct Day {
    model: Model,
    ledger: Ledger,
    /// The figures worked out last.
    figures: Figures,
    open: bool,
}

impl Day {
    fn serve(&mut self, call: Call) -> Result<Answer, Turned> {
        match (call.time(), self.open) {
            (Time::Session, false) => return Err(Turned::Misplaced(Misplaced::NotOpen)),
            (Time::Preparation, true) => return Err(Turned::Misplaced(Misplaced::Opened)),
            _ => {}
        }
        let answer = match call {
            Call::Trader {
                intraday_limit,
                default_count,
            } => self.trader(intraday_limit, default_count)?,
            Call::Client { trader } => self.client(trader)?,
            Call::Carry { client, deal } => self.carry(client, deal)?,
            Call::Price { contract, price } => self.price(contract, price)?,
            Call::Deposit { holder, amount } => self.deposit(holder, amount)?,
            Call::Open => self.open(),
            Call::Trade { trader, deal } => self.trade(trader, deal)?,
            Call::Specify { trade, client } => self.specify(trade, client)?,
            Call::Cancel { trade } => self.cancel(trade)?,
            Call::Withdraw { holder, amount } => self.withdraw(holder, amount)?,
            Call::Settle { serial } => {
                self.spend(serial)?;
                Answer::Accepted
            }
            Call::PutBack { serial } => {
                let slip = self.spend(serial)?;
                *self.ledger.collateral(slip.holder) += slip.amount;
                Answer::Accepted
            }
            Call::Cash { client, amount } => self.cash(client, amount)?,
            Call::Window => self.window()?,
            Call::Statement { trader } => {
                let trader = known(&self.ledger.traders, trader)?;
                self.work_out(trader);
                Answer::Statement(trader)
            }
        };
        Ok(answer)
    }

    fn work_out(&mut self, trader: usize) {
        self.figures.work_out(&self.ledger, &self.model, trader);
    }

    fn trader(&mut self, intraday_limit: i64, default_count: i64) -> Result<Answer, Refusal> {
        let traders = &mut self.ledger.traders;
        require(traders.len() < MOST_TRADERS, Refusal::Full)?;
        let in_range = (0..=MOST_MONEY).contains(&intraday_limit)
            && (1..=MOST_CLIENTS as i64).contains(&default_count);
        require(in_range, Refusal::OutOfRange)?;
        traders.push(Trader {
            intraday_limit,
            default_count: default_count as usize,
            clients: Vec::new(),
            own_collateral: 0,
            member_collateral: 0,
        });
        Ok(Answer::Trader(traders.len() - 1))
    }

    fn client(&mut self, trader: u64) -> Result<Answer, Refusal> {
        let ledger = &mut self.ledger;
        let trader = known(&ledger.traders, trader)?;
        let number = ledger.clients.len();
        require(number < MOST_CLIENTS, Refusal::Full)?;
        let siblings = &mut ledger.traders[trader].clients;
        ledger.clients.push(Client {
            trader,
            rank: siblings.len(),
            collateral: 0,
            settlement: 0,
            opening_need: 0,
        });
        siblings.push(number);
        Ok(Answer::Client(number))
    }

    fn carry(&mut self, client: u64, deal: Deal) -> Result<Answer, Refusal> {
        let client = known(&self.ledger.clients, client)?;
        let trader = self.ledger.clients[client].trader;
        self.enter(trader, deal, Standing::Carried(client))
    }

    fn trade(&mut self, trader: u64, deal: Deal) -> Result<Answer, Refusal> {
        let trader = known(&self.ledger.traders, trader)?;
        self.enter(trader, deal, Standing::Unspecified)
    }

    /// The rows and the entry that `carry` and `trade` have in common.
    fn enter(&mut self, trader: usize, deal: Deal, standing: Standing) -> Result<Answer, Refusal> {
        require(self.model.place(deal.contract).is_some(), Refusal::Unknown)?;
        let contract = deal.contract as usize;
        let number = self.ledger.trades.len();
        require(number < MOST_TRADES, Refusal::Full)?;
        let in_range =
            (1..=MOST_QUANTITY).contains(&deal.quantity) && (1..=MOST_PRICE).contains(&deal.price);
        require(in_range, Refusal::OutOfRange)?;
        require(self.ledger.prices[contract].is_some(), Refusal::NoPrice)?;
        let quantity = deal.quantity as i64;
        self.ledger.trades.push(Trade {
            trader,
            contract,
            quantity: if deal.side == Side::Buy {
                quantity
            } else {
                -quantity
            },
            price: deal.price as i64,
            standing,
        });
        Ok(Answer::Trade(number))
    }

    fn price(&mut self, contract: u64, price: u64) -> Result<Answer, Refusal> {
        require(self.model.place(contract).is_some(), Refusal::Unknown)?;
        require((1..=MOST_PRICE).contains(&price), Refusal::OutOfRange)?;
        self.ledger.prices[contract as usize] = Some(price as i64);
        Ok(Answer::Accepted)
    }

    fn deposit(&mut self, holder: Holder<u64>, amount: i64) -> Result<Answer, Refusal> {
        let holder = self.ledger.known_holder(holder)?;
        require((1..=MOST_MONEY).contains(&amount), Refusal::OutOfRange)?;
        let on_slips = self.ledger.on_slips(holder);
        let collateral = self.ledger.collateral(holder);
        let fits = *collateral + on_slips + amount <= MOST_MONEY;
        require(fits, Refusal::TooMuchCollateral)?;
        *collateral += amount;
        Ok(Answer::Accepted)
    }

    fn open(&mut self) -> Answer {
        for trader in 0..self.ledger.traders.len() {
            self.work_out(trader);
            let clients = &mut self.ledger.clients;
            let numbers = &self.ledger.traders[trader].clients;
            for (&number, figures) in numbers.iter().zip(&self.figures.clients) {
                clients[number].opening_need = figures.need;
            }
        }
        self.open = true;
        Answer::Accepted
    }

    fn specify(&mut self, trade: u64, client: u64) -> Result<Answer, Refusal> {
        let ledger = &mut self.ledger;
        let trade = known(&ledger.trades, trade)?;
        let client = known(&ledger.clients, client)?;
        let trade = &mut ledger.trades[trade];
        require(trade.standing == Standing::Unspecified, Refusal::WrongState)?;
        require(
            ledger.clients[client].trader == trade.trader,
            Refusal::OtherTrader,
        )?;
        trade.standing = Standing::Specified(client);
        Ok(Answer::Accepted)
    }

    fn cancel(&mut self, trade: u64) -> Result<Answer, Refusal> {
        let trade = known(&self.ledger.trades, trade)?;
        let before = self.ledger.trades[trade].standing;
        require(
            matches!(before, Standing::Specified(_)),
            Refusal::WrongState,
        )?;
        let trader = self.ledger.trades[trade].trader;
        self.ledger.trades[trade].standing = Standing::Unspecified;
        self.work_out(trader);
        let limit_afterwards = self.figures.limit();
        if limit_afterwards < 0 {
            // Only now does it matter what the limit was.
            self.ledger.trades[trade].standing = before;
            self.work_out(trader);
            require(
                limit_afterwards >= self.figures.limit(),
                Refusal::NotCovered,
            )?;
            self.ledger.trades[trade].standing = Standing::Unspecified;
        }
        Ok(Answer::Accepted)
    }

    fn withdraw(&mut self, holder: Holder<u64>, amount: i64) -> Result<Answer, Refusal> {
        let holder = self.ledger.known_holder(holder)?;
        let room = self.ledger.slips.len() < MOST_SLIPS_STANDING
            && self.ledger.slips_made < MOST_SLIPS_MADE;
        require(room, Refusal::Full)?;
        require((1..=MOST_MONEY).contains(&amount), Refusal::OutOfRange)?;
        require(
            amount <= *self.ledger.collateral(holder),
            Refusal::NotCovered,
        )?;
        *self.ledger.collateral(holder) -= amount;
        if !self.covered_after_withdrawal(holder) {
            *self.ledger.collateral(holder) += amount;
            return Err(Refusal::NotCovered);
        }
        let ledger = &mut self.ledger;
        ledger.slips_made += 1;
        let serial = ledger.slips_made;
        ledger.slips.push(Slip {
            serial,
            holder,
            amount,
        });
        Ok(Answer::Slip(serial))
    }

    /// Whether the collateral that is left covers what it must.
    fn covered_after_withdrawal(&mut self, holder: Holder<usize>) -> bool {
        self.work_out(self.ledger.trader_of(holder));
        let client_is_covered = match holder {
            Holder::Client(number) => {
                let client = &self.ledger.clients[number];
                let need = self.figures.clients[client.rank].need;
                client.collateral >= need.max(client.opening_need)
            }
            Holder::Trader(_) | Holder::Member(_) => true,
        };
        client_is_covered && self.figures.limit() >= 0
    }

    fn spend(&mut self, serial: u64) -> Result<Slip, Turned> {
        let slip = self.ledger.take_slip(serial);
        slip.ok_or(Turned::Misplaced(Misplaced::NoSuchSlip))
    }

    fn cash(&mut self, client: u64, amount: i64) -> Result<Answer, Refusal> {
        let client = known(&self.ledger.clients, client)?;
        let in_range = (-MOST_SETTLEMENT..=MOST_SETTLEMENT).contains(&amount);
        require(in_range, Refusal::OutOfRange)?;
        require(!self.ledger.window_passed, Refusal::WindowPassed)?;
        self.ledger.clients[client].settlement = amount;
        Ok(Answer::Accepted)
    }

    fn window(&mut self) -> Result<Answer, Refusal> {
        require(!self.ledger.window_passed, Refusal::WindowPassed)?;
        self.ledger.window_passed = true;
        for client in &mut self.ledger.clients {
            client.settlement = 0;
        }
        Ok(Answer::Accepted)
    }
}

// ---------------------------------------------------------------------------------------------
// The console
// ---------------------------------------------------------------------------------------------

struct Console {
    day: Day,
    /// Whether a call came, so that the model is fixed.
    called: bool,
    /// Whether a line was answered with `unreadable`.
    unreadable: bool,
    out: BufWriter<Stdout>,
}

/// A line as it was read.
enum Line {
    /// It stands in the buffer, without its end.
    Whole,
    TooLong,
    End,
}

/// The first 65,537 bytes of a file: enough to refuse a longer one.
fn read_file(path: &str) -> io::Result<Vec<u8>> {
    let mut bytes = Vec::new();
    File::open(path)?
        .take(LARGEST_FILE as u64 + 1)
        .read_to_end(&mut bytes)?;
    Ok(bytes)
}

impl Console {
    fn new() -> Console {
        let day = Day {
            model: Model::new(),
            ledger: Ledger::new(),
            figures: Figures::default(),
            open: false,
        };
        Console {
            day,
            called: false,
            unreadable: false,
            out: BufWriter::with_capacity(1 << 16, io::stdout()),
        }
    }

    fn run(&mut self) -> io::Result<()> {
        let mut input = BufReader::with_capacity(1 << 16, io::stdin());
        let mut line = Vec::with_capacity(LONGEST_LINE);
        loop {
            match self.read_line(&mut input, &mut line)? {
                Line::Whole => self.answer(&line)?,
                Line::TooLong => self.answer_unreadable("the line is too long")?,
                Line::End => return self.out.flush(),
            }
        }
    }

    /// Reads a line into the buffer. Answers go out before the program waits for more input.
    fn read_line(&mut self, input: &mut BufReader<Stdin>, line: &mut Vec<u8>) -> io::Result<Line> {
        line.clear();
        let mut length = 0;
        loop {
            if input.buffer().is_empty() {
                self.out.flush()?;
            }
            let bytes = match input.fill_buf() {
                Ok(bytes) => bytes,
                Err(error) if error.kind() == ErrorKind::Interrupted => continue,
                Err(error) => return Err(error),
            };
            let at_end = bytes.is_empty();
            let newline = bytes.iter().position(|&byte| byte == b'\n');
            let part = &bytes[..newline.unwrap_or(bytes.len())];
            length += part.len();
            if length <= LONGEST_LINE {
                line.extend_from_slice(part);
            }
            let used = part.len() + usize::from(newline.is_some());
            input.consume(used);
            if newline.is_none() && !at_end {
                continue;
            }
            if length > LONGEST_LINE {
                return Ok(Line::TooLong);
            }
            if newline.is_some() && line.last() == Some(&b'\r') {
                line.pop();
            }
            return Ok(if at_end && length == 0 {
                Line::End
            } else {
                Line::Whole
            });
        }
    }

    fn answer(&mut self, line: &[u8]) -> io::Result<()> {
        match order(line) {
            None => self.answer_unreadable("not a line of this program"),
            Some(Order::Nothing) => Ok(()),
            Some(Order::Sheet(path)) => self.answer_sheet(path),
            Some(Order::Contract(contract)) => self.answer_contract(contract),
            Some(Order::Call(call)) => self.answer_call(call),
        }
    }

    fn answer_unreadable(&mut self, text: &str) -> io::Result<()> {
        self.unreadable = true;
        writeln!(self.out, "unreadable {text}")
    }

    fn answer_sheet(&mut self, path: &str) -> io::Result<()> {
        if self.called {
            return writeln!(self.out, "{}", Misplaced::SheetAfterCall);
        }
        let Ok(bytes) = read_file(path) else {
            return self.answer_unreadable("the file cannot be read");
        };
        let sheet = match Sheet::read(&bytes) {
            Ok(sheet) => sheet,
            Err(refusal) => return writeln!(self.out, "{refusal}"),
        };
        let model = &mut self.day.model;
        if model.is_full() {
            return writeln!(self.out, "{}", Misplaced::EightSheets);
        }
        let place = model.add(&sheet);
        writeln!(
            self.out,
            "sheet {place} {} contracts {} scenarios {}",
            sheet.kind.word(),
            sheet.contracts.len(),
            sheet.scenarios
        )
    }

    fn answer_contract(&mut self, contract: Option<u64>) -> io::Result<()> {
        let model = &self.day.model;
        let known = contract.and_then(|number| Some((number, model.place(number)?)));
        let Some((number, place)) = known else {
            return writeln!(self.out, "{}", Refusal::Unknown);
        };
        let Place {
            subportfolio,
            multiplier,
            shocks,
        } = place;
        write!(
            self.out,
            "contract {number} subportfolio {subportfolio} multiplier {multiplier} shocks"
        )?;
        for shock in &model.shocks[shocks.clone()] {
            write!(self.out, " {shock}")?;
        }
        writeln!(self.out)
    }

    fn answer_call(&mut self, call: Call) -> io::Result<()> {
        self.called = true;
        let out = &mut self.out;
        match self.day.serve(call) {
            Ok(Answer::Accepted) => writeln!(out, "accepted"),
            Ok(Answer::Trader(number)) => writeln!(out, "trader {number}"),
            Ok(Answer::Client(number)) => writeln!(out, "client {number}"),
            Ok(Answer::Trade(number)) => writeln!(out, "trade {number}"),
            Ok(Answer::Slip(serial)) => writeln!(out, "slip {serial}"),
            Ok(Answer::Statement(trader)) => self.day.figures.write(&self.day.ledger, trader, out),
            Err(Turned::Refused(refusal)) => writeln!(out, "{refusal}"),
            Err(Turned::Misplaced(misplaced)) => writeln!(out, "{misplaced}"),
        }
    }
}

fn main() -> ExitCode {
    let mut console = Console::new();
    match console.run() {
        Ok(()) if !console.unreadable => ExitCode::SUCCESS,
        _ => ExitCode::FAILURE,
    }
}
