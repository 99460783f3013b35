//! The rows of a view as named fields, for the forms that programs read: the same names in each of them.

use super::view::{Contract, Money, Order, Position, Underlying};
use crate::decimal::{price, yuan};

pub(super) enum Value {
    Word(&'static str),
    /// That of a contract, an underlying or an order.
    Number(u32),
    Contracts(u32),
    Units(u64),
    Price(u32),
    Money(i128),
}

impl Value {
    pub(super) fn text(&self) -> String {
        match self {
            Value::Word(word) => word.to_string(),
            Value::Number(number) => number.to_string(),
            Value::Contracts(count) => count.to_string(),
            Value::Units(count) => count.to_string(),
            Value::Price(value) => price(*value),
            Value::Money(fen) => yuan(*fen),
        }
    }

    /// What it counts; nothing, where it is a name.
    pub(super) fn measure(&self) -> &'static str {
        match self {
            Value::Word(_) | Value::Number(_) => "",
            Value::Contracts(_) => "contracts",
            Value::Units(_) => "units",
            Value::Price(_) | Value::Money(_) => "yuan",
        }
    }
}

pub(super) type Field = (&'static str, Value);

/// What has fields. In a row of many the first one tells it from the others.
pub(super) trait Fields {
    fn fields(&self) -> Vec<Field>;
}

fn money(fen: impl Into<i128>) -> Value {
    Value::Money(fen.into())
}

impl Fields for Money {
    fn fields(&self) -> Vec<Field> {
        vec![
            ("cash", money(self.cash)),
            ("covered_premium", money(self.covered_premium)),
            ("holds", money(self.holds)),
            ("payout", money(self.payout)),
            ("margin", money(self.margin)),
            ("available", money(self.available)),
        ]
    }
}

impl Fields for Underlying {
    fn fields(&self) -> Vec<Field> {
        let mut fields = vec![
            ("underlying", Value::Number(self.number.into())),
            ("class", Value::Word(self.class)),
            ("close", Value::Price(self.close)),
            ("rights_limit", Value::Contracts(self.rights.into())),
            ("total_limit", Value::Contracts(self.total.into())),
            ("daily_limit", Value::Contracts(self.daily.into())),
        ];
        if let Some(standing) = &self.standing {
            fields.extend([
                ("rights", Value::Contracts(standing.rights)),
                ("total", Value::Contracts(standing.total)),
                ("daily", Value::Contracts(standing.daily)),
                ("locked", Value::Units(standing.locked)),
                ("spare", Value::Units(standing.spare)),
            ]);
        }
        fields
    }
}

impl Fields for Contract {
    fn fields(&self) -> Vec<Field> {
        vec![
            ("contract", Value::Number(self.number.into())),
            ("right", Value::Word(self.right)),
            ("underlying", Value::Number(self.underlying.into())),
            ("strike", Value::Price(self.strike)),
            ("unit", Value::Units(self.unit.into())),
            ("settlement", Value::Price(self.settlement)),
            ("margin_of_one", money(self.margin_of_one)),
        ]
    }
}

impl Fields for Position {
    fn fields(&self) -> Vec<Field> {
        let mut fields = self.contract.fields();
        fields.extend([
            ("long", Value::Contracts(self.long)),
            ("short", Value::Contracts(self.short)),
            ("covered", Value::Contracts(self.covered)),
            ("margin", money(self.margin)),
        ]);
        fields
    }
}

/// What its contract is stands in the contract's own row.
impl Fields for Order {
    fn fields(&self) -> Vec<Field> {
        vec![
            ("order", Value::Number(self.number)),
            ("kind", Value::Word(self.kind)),
            ("contract", Value::Number(self.contract.number.into())),
            ("left", Value::Contracts(self.left)),
            ("price", Value::Price(self.price)),
            ("hold", money(self.hold)),
            ("reserved", Value::Units(self.reserved)),
        ]
    }
}
