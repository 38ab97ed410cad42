//! What the nets of a module hold for an input: patterns of as many bits as each is wide.

use super::syntax::{Expression, Module, Net};

/// Unsized numbers are signed and so many bits wide.
const NUMBER_WIDTH: u32 = 32;

/// A pattern below 2^width.
#[derive(Clone, Copy, Debug, PartialEq, Eq)]
pub struct Value {
    pub pattern: u64,
    pub width: u32,
    pub signed: bool,
}

/// Modulo 2^width.
fn cut(number: u64, width: u32) -> u64 {
    number & (u64::MAX >> (64 - width))
}

impl Value {
    fn of(net: &Net, pattern: u64) -> Self {
        Value {
            pattern: cut(pattern, net.width),
            width: net.width,
            signed: net.signed,
        }
    }

    /// As a whole number.
    pub fn whole(self) -> i128 {
        let negative = self.signed && self.pattern >> (self.width - 1) == 1;
        self.pattern as i128 - ((negative as i128) << self.width)
    }

    /// To a width that is not smaller, with its sign where the whole expression is signed.
    fn extended(self, width: u32, signed: bool) -> u64 {
        cut(Value { signed, ..self }.whole() as u64, width)
    }
}

impl Module {
    /// A shift amount has no say in the width.
    fn width(&self, expression: &Expression) -> u32 {
        match expression {
            Expression::Net(net) => self.nets[*net].width,
            Expression::Number(_) => NUMBER_WIDTH,
            Expression::Minus(a) | Expression::Shift(a, _) => self.width(a),
            Expression::Sum(a, b) | Expression::Difference(a, b) => {
                self.width(a).max(self.width(b))
            }
        }
    }

    /// All operands are signed; a shift amount has no say in it.
    fn is_signed(&self, expression: &Expression) -> bool {
        match expression {
            Expression::Net(net) => self.nets[*net].signed,
            Expression::Number(_) => true,
            Expression::Minus(a) | Expression::Shift(a, _) => self.is_signed(a),
            Expression::Sum(a, b) | Expression::Difference(a, b) => {
                self.is_signed(a) && self.is_signed(b)
            }
        }
    }

    /// The pattern at this width, none where a net has no value yet.
    fn pattern(
        &self,
        expression: &Expression,
        values: &[Option<Value>],
        width: u32,
        signed: bool,
    ) -> Option<u64> {
        let operand = |expression| self.pattern(expression, values, width, signed);
        let pattern = match expression {
            Expression::Net(net) => values[*net]?.extended(width, signed),
            Expression::Number(number) => *number as u64,
            Expression::Minus(a) => operand(a)?.wrapping_neg(),
            Expression::Sum(a, b) => operand(a)?.wrapping_add(operand(b)?),
            Expression::Difference(a, b) => operand(a)?.wrapping_sub(operand(b)?),
            Expression::Shift(a, amount) => {
                let amount = self.by_itself(amount, values)?;
                let shifted = operand(a)? as u128;
                if amount < 64 {
                    (shifted << amount) as u64
                } else {
                    0
                }
            }
        };
        Some(cut(pattern, width))
    }

    /// A shift amount has its own width and sign, and is then read as unsigned.
    fn by_itself(&self, amount: &Expression, values: &[Option<Value>]) -> Option<u64> {
        let (width, signed) = (self.width(amount), self.is_signed(amount));
        self.pattern(amount, values, width, signed)
    }

    fn assigned(&self, net: usize, values: &[Option<Value>]) -> Option<Value> {
        let right_side = self.right_sides[net].as_ref()?;
        let width = self.nets[net].width.max(self.width(right_side));
        let signed = self.is_signed(right_side);
        let pattern = self.pattern(right_side, values, width, signed)?;
        Some(Value::of(&self.nets[net], pattern))
    }

    /// The values of all nets. The assigns hold at once: each net gets its value when those that it
    /// depends on have theirs. A net that depends on itself never gets one.
    pub fn values(&self, input: i64) -> Option<Vec<Value>> {
        let mut values = vec![None; self.nets.len()];
        values[0] = Some(Value::of(&self.nets[0], input as u64));
        let mut left = self.order.clone();
        while !left.is_empty() {
            let before = left.len();
            left.retain(|net| {
                values[*net] = self.assigned(*net, &values);
                values[*net].is_none()
            });
            if left.len() == before {
                return None;
            }
        }
        values.into_iter().collect()
    }

    /// The values of the outputs, as whole numbers.
    pub fn output_values(&self, input: i64) -> Option<Vec<i128>> {
        let values = self.values(input)?;
        let outputs = &values[1..1 + self.outputs];
        Some(outputs.iter().map(|value| value.whole()).collect())
    }
}
