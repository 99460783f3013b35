//! Cases a to n of document 01, as one table.

use plain::account::Position;
use plain::rules::{margin, net};
use plain::terms::{Class, Contract, Right, Underlying};

enum Case {
    /// Class, right, unit, (S, P, K), margin in fen.
    Margin(char, Class, Right, u32, (u32, u32, u32), i64),
    /// Long, short, covered, before and after.
    Net(char, (i64, i64, i64), (i64, i64, i64)),
}

use Case::{Margin, Net};
use Class::{Fund, Stock};
use Right::{Call, Put};

const CASES: [Case; 14] = [
    Margin('a', Fund, Call, 10000, (500, 25000, 26000), 250_000),
    Margin('b', Fund, Call, 10000, (100, 25000, 28000), 185_000),
    Margin('c', Fund, Call, 10000, (500, 25000, 26250), 225_000),
    Margin('d', Fund, Put, 10000, (400, 25000, 24000), 240_000),
    Margin('e', Fund, Put, 10000, (24000, 1000, 25000), 2_500_000),
    Margin('f', Stock, Call, 5000, (5000, 100000, 100000), 1_300_000),
    Margin('g', Stock, Put, 5000, (5000, 100000, 100000), 1_200_000),
    Margin('h', Fund, Call, 100, (0, 50, 53), 4),
    Margin('i', Fund, Call, 100, (0, 49, 53), 3),
    Net('j', (10, 6, 0), (4, 0, 0)),
    Net('k', (10, 5, 3), (2, 0, 0)),
    Net('l', (10, 12, 3), (0, 2, 3)),
    Net('m', (0, 2, 2), (0, 2, 2)),
    Net('n', (10, 0, 15), (0, 0, 5)),
];

#[test]
fn a_to_n() {
    for case in CASES {
        match case {
            Margin(name, class, right, unit, figures, fen) => {
                let (contract, underlying) = rows(class, right, unit, figures);
                assert_eq!(margin(&contract, &underlying), Ok(fen), "case {name}");
            }
            Net(name, before, after) => {
                assert_eq!(net(position(before)), position(after), "case {name}");
            }
        }
    }
}

fn rows(
    class: Class,
    right: Right,
    unit: u32,
    (s, p, k): (u32, u32, u32),
) -> (Contract, Underlying) {
    let contract = Contract::new(0, right, [k, unit, s]);
    let underlying = Underlying::new(class, p, [0; 3]);
    (contract, underlying)
}

fn position((long, short, covered): (i64, i64, i64)) -> Position {
    Position {
        long,
        short,
        covered,
    }
}
