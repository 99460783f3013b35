//! The table of records and the list of refusals are the proved source's, and so are the bytes that a line is written as.

mod common;

use common::ravundesk;
use native::entries::{Contract, Entry, Figures, Fill, Kind, Order, Underlying};
use native::terms::{Class, OrderKind, Refusal, Right};
use native::writing::write;
use ravundesk::records::table::{Form, Row, Times, ROWS};
use ravundesk::refusals::REFUSALS;
use trials::chance::Chance;

#[test]
fn a_row_for_each_kind_and_no_other() {
    for code in 0..=u16::MAX {
        let rows: Vec<&Row> = ROWS.iter().filter(|row| row.kind == code).collect();
        match Kind::try_from(code) {
            Ok(kind) => {
                assert_eq!(rows.len(), 1, "kind {code}");
                let once = rows[0].fields.iter();
                let once = once.filter(|field| field.times == Times::Once);
                let length = 4 + once.map(|field| field.width).sum::<usize>();
                assert_eq!(length, kind.length().into(), "kind {code}");
            }
            Err(_) => assert!(rows.is_empty(), "kind {code}"),
        }
    }
}

fn listed(name: &str, code: u16) -> bool {
    match name {
        "class" => Class::try_from(code).is_ok(),
        "right" => Right::try_from(code).is_ok(),
        "kind" => OrderKind::try_from(code).is_ok(),
        other => panic!("{other} has no codes"),
    }
}

#[test]
fn a_word_for_each_code_and_no_other() {
    let mut names = Vec::new();
    for field in ROWS.iter().flat_map(|row| row.fields) {
        if let Form::Word(words) = field.form {
            names.push(field.name);
            for code in 0..=u16::MAX {
                let told = (1..=words.len()).contains(&code.into());
                assert_eq!(told, listed(field.name, code), "{} {code}", field.name);
            }
        }
    }
    assert_eq!(names, ["class", "right", "kind"]);
}

#[test]
fn the_refusals_in_order() {
    let numbers = [
        Refusal::CutShort,
        Refusal::UnknownKind,
        Refusal::Misshapen,
        Refusal::OutOfRange,
        Refusal::OutOfPlace,
        Refusal::StaleNumber,
        Refusal::NoSuchOrder,
        Refusal::OrdersFull,
        Refusal::PositionTooSmall,
        Refusal::RightsPassed,
        Refusal::TotalPassed,
        Refusal::DailyPassed,
        Refusal::SpareTooFew,
        Refusal::AvailablePassed,
        Refusal::CeilingPassed,
        Refusal::FillBarred,
        Refusal::BufferTooShort,
        Refusal::CashBelowZero,
        Refusal::NothingWaiting,
        Refusal::AlreadyWaiting,
        Refusal::LongTooSmall,
        Refusal::MeansTooSmall,
    ]
    .map(Refusal::number);
    let told: Vec<u8> = REFUSALS.iter().map(|refusal| refusal.number).collect();
    assert_eq!(told, numbers);
    assert_eq!(told, (1..=20).chain([22, 23]).collect::<Vec<u8>>());
    let mut meanings: Vec<&str> = REFUSALS.iter().map(|refusal| refusal.meaning).collect();
    meanings.sort_unstable();
    meanings.dedup();
    assert_eq!(meanings.len(), numbers.len());
}

/// Random entries, their numbers often at the edges of their fields.
struct Draw(Chance);

impl Draw {
    fn number(&mut self, most: u64) -> u64 {
        let any = self.0.draw() & most;
        self.0.pick(&[0, 1, most, any, any, any])
    }

    fn two(&mut self) -> u16 {
        self.number(u16::MAX.into()) as u16
    }

    fn four(&mut self) -> u32 {
        self.number(u32::MAX.into()) as u32
    }

    fn eight(&mut self) -> u64 {
        self.number(u64::MAX)
    }

    fn entry(&mut self) -> Entry {
        let (underlying, units) = (self.two(), self.four());
        match self.0.between(1, 13) {
            1 => Entry::Deposit(self.eight()),
            2 => Entry::Withdraw(self.eight()),
            3 => Entry::Lock { underlying, units },
            4 => Entry::Unlock { underlying, units },
            5 => Entry::Order(self.order()),
            6 => Entry::Fill(Fill {
                number: self.four(),
                quantity: self.four(),
                price: self.four(),
            }),
            7 => Entry::Cancel {
                number: self.four(),
            },
            8 => Entry::DayEnd {
                n: self.0.between(1, 64) as u16,
                m: self.0.between(1, 8) as u16,
            },
            9 => Entry::Pay,
            10 => Entry::Drop,
            11 => Entry::Underlying(Underlying {
                class: self.0.pick(&[Class::Stock, Class::Fund]),
                close: self.four(),
                rights: self.two(),
                total: self.two(),
                daily: self.two(),
            }),
            12 => Entry::Contract(Contract {
                underlying,
                right: self.0.pick(&[Right::Call, Right::Put]),
                strike: self.four(),
                unit: self.four(),
                settlement: self.four(),
            }),
            _ => Entry::Opening(self.eight()),
        }
    }

    fn order(&mut self) -> Order {
        Order {
            number: self.four(),
            contract: self.two(),
            kind: self.0.pick(&[
                OrderKind::BuyOpen,
                OrderKind::SellClose,
                OrderKind::SellOpen,
                OrderKind::BuyClose,
                OrderKind::CoveredOpen,
                OrderKind::CoveredClose,
            ]),
            quantity: self.four(),
            price: self.four(),
        }
    }

    fn figures(&mut self) -> Figures {
        Figures {
            settlements: [(); 64].map(|()| self.four()),
            closes: [(); 8].map(|()| self.four()),
        }
    }
}

fn money(fen: u64) -> String {
    format!("{}.{:02}", fen / 100, fen % 100)
}

fn price(price: u32) -> String {
    format!("{}.{:04}", price / 10_000, price % 10_000)
}

fn prices(prices: &[u32]) -> String {
    let prices: Vec<String> = prices.iter().map(|&figure| price(figure)).collect();
    prices.join(" ")
}

/// The entry's line, spelled out once more.
fn line(entry: Entry, figures: &Figures) -> String {
    match entry {
        Entry::Deposit(amount) => format!("deposit {}", money(amount)),
        Entry::Withdraw(amount) => format!("withdraw {}", money(amount)),
        Entry::Lock { underlying, units } => format!("lock {units} on {underlying}"),
        Entry::Unlock { underlying, units } => format!("unlock {units} on {underlying}"),
        Entry::Order(order) => order_line(order),
        Entry::Fill(fill) => {
            let price = price(fill.price);
            format!("fill {} x{} @{price}", fill.number, fill.quantity)
        }
        Entry::Cancel { number } => format!("cancel {number}"),
        Entry::DayEnd { n, m } => {
            let settlements = prices(&figures.settlements[..n.into()]);
            let closes = prices(&figures.closes[..m.into()]);
            format!("day-end settlements {settlements} closes {closes}")
        }
        Entry::Pay => "pay".to_string(),
        Entry::Drop => "drop".to_string(),
        Entry::Underlying(row) => underlying_line(row),
        Entry::Contract(row) => contract_line(row),
        Entry::Opening(cash) => format!("open {}", money(cash)),
    }
}

fn order_line(order: Order) -> String {
    let kind = match order.kind {
        OrderKind::BuyOpen => "buy-open",
        OrderKind::SellClose => "sell-close",
        OrderKind::SellOpen => "sell-open",
        OrderKind::BuyClose => "buy-close",
        OrderKind::CoveredOpen => "covered-open",
        OrderKind::CoveredClose => "covered-close",
    };
    let (number, contract, quantity) = (order.number, order.contract, order.quantity);
    format!(
        "order {number} {kind} {contract} x{quantity} @{}",
        price(order.price)
    )
}

fn underlying_line(row: Underlying) -> String {
    let class = match row.class {
        Class::Stock => "stock",
        Class::Fund => "fund",
    };
    let (close, rights, total, daily) = (price(row.close), row.rights, row.total, row.daily);
    format!("underlying {class} close {close} rights {rights} total {total} daily {daily}")
}

fn contract_line(row: Contract) -> String {
    let right = match row.right {
        Right::Call => "call",
        Right::Put => "put",
    };
    let (strike, settlement) = (price(row.strike), price(row.settlement));
    let (underlying, unit) = (row.underlying, row.unit);
    format!("contract {right} on {underlying} strike {strike} unit {unit} settlement {settlement}")
}

fn proved(entry: Entry, figures: Figures) -> Vec<u8> {
    let mut buffer = [0; 296];
    match write(entry, figures, &mut buffer) {
        Ok(length) => buffer[..length].to_vec(),
        Err(why) => panic!("refused with {}", why.number()),
    }
}

#[test]
fn lines_are_written_as_the_proved_writer_writes() {
    let mut draw = Draw(Chance::new(503, 0));
    let (mut text, mut bytes) = (String::new(), Vec::new());
    for _ in 0..20_000 {
        let (entry, figures) = (draw.entry(), draw.figures());
        text += &format!("{}\n", line(entry, &figures));
        bytes.extend(proved(entry, figures));
    }
    let written = ravundesk(&["write"], text.as_bytes());
    assert_eq!((written.errors.as_str(), written.status), ("", 0));
    assert!(
        written.output == bytes,
        "other bytes than the proved writer's"
    );
    let shown = ravundesk(&["show"], &bytes);
    assert!(shown.text() == text, "other lines than those written");
}
