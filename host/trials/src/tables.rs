//! The two sets of tables that `open` lines choose from.

use plain::terms::{Class, Contract, Right, Tables, Underlying};

/// A fund and a stock with near limits, and a fund whose margin is a few fen.
pub fn small() -> Tables {
    Tables {
        underlyings: vec![
            Underlying::new(Class::Fund, 25_000, [20, 50, 30]),
            Underlying::new(Class::Stock, 100_000, [10_000, 10_000, 100]),
            Underlying::new(Class::Fund, 50, [10_000, 10_000, 10_000]),
        ],
        contracts: vec![
            Contract::new(0, Right::Call, [26_000, 10_000, 500]),
            Contract::new(0, Right::Put, [24_000, 10_000, 400]),
            Contract::new(1, Right::Call, [100_000, 5_000, 5_000]),
            Contract::new(1, Right::Put, [100_000, 5_000, 5_000]),
            Contract::new(2, Right::Call, [53, 100, 0]),
        ],
    }
}

/// As many underlyings and contracts as there can be, no two contracts alike.
pub fn full() -> Tables {
    let row = |c: u32| {
        let right = if c < 32 { Right::Call } else { Right::Put };
        let figures = [20_000 + 300 * c, 100 * (1 + c), 10 * c];
        Contract::new((c % 8) as u16, right, figures)
    };
    Tables {
        underlyings: vec![Underlying::new(Class::Fund, 30_000, [60, 90, 70]); 8],
        contracts: (0..64).map(row).collect(),
    }
}
