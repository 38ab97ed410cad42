//! Tokens to a module: one input, which is the first port, and outputs; then wires and assigns. A net
//! is declared above its use, and each but the input is assigned once.

use super::tokens::Token;
use std::collections::HashMap;
use std::slice::Iter;

#[derive(Clone, Debug, PartialEq, Eq)]
pub struct Net {
    pub name: String,
    pub width: u32,
    pub signed: bool,
}

/// An expression over nets by their numbers.
#[derive(Clone, Debug, PartialEq, Eq)]
pub enum Expression {
    Net(usize),
    Number(u32),
    Minus(Box<Expression>),
    Sum(Box<Expression>, Box<Expression>),
    Difference(Box<Expression>, Box<Expression>),
    Shift(Box<Expression>, Box<Expression>),
}

#[derive(Clone, Debug, PartialEq, Eq)]
pub struct Module {
    pub name: String,
    /// The input, the outputs, then the wires.
    pub nets: Vec<Net>,
    pub outputs: usize,
    /// Each net's right side, none for the input.
    pub(super) right_sides: Vec<Option<Expression>>,
    /// The nets in the order in which they are assigned.
    pub(super) order: Vec<usize>,
}

struct Reader<'a> {
    tokens: Iter<'a, Token<'a>>,
    numbers: HashMap<&'a str, usize>,
    module: Module,
}

impl<'a> Reader<'a> {
    /// Passes this token, where it comes next.
    fn pass(&mut self, token: Token) -> Option<()> {
        (*self.tokens.as_slice().first()? == token).then(|| self.tokens.next())?;
        Some(())
    }

    fn mark(&mut self, mark: &str) -> Option<()> {
        self.pass(Token::Mark(mark))
    }

    fn keyword(&mut self, keyword: &str) -> Option<()> {
        self.pass(Token::Keyword(keyword))
    }

    fn name(&mut self) -> Option<&'a str> {
        match self.tokens.next()? {
            Token::Name(name) => Some(name),
            _ => None,
        }
    }

    fn number(&mut self) -> Option<u32> {
        match self.tokens.next()? {
            Token::Number(number) => Some(*number),
            _ => None,
        }
    }

    /// `signed [15:0] x`, of 16 bits; without `signed` the net is unsigned.
    fn net(&mut self) -> Option<()> {
        let signed = self.keyword("signed").is_some();
        self.mark("[")?;
        let width = self.number()? + 1;
        self.mark(":")?;
        let low = self.number()?;
        self.mark("]")?;
        let name = self.name()?;
        let number = self.module.nets.len();
        let new = self.numbers.insert(name, number).is_none();
        self.module.nets.push(Net {
            name: name.into(),
            width,
            signed,
        });
        self.module.right_sides.push(None);
        (new && low == 0 && width <= 64).then_some(())
    }

    fn ports(&mut self) -> Option<()> {
        self.mark("(")?;
        self.keyword("input")?;
        self.net()?;
        while self.mark(",").is_some() {
            self.keyword("output")?;
            self.net()?;
            self.module.outputs += 1;
        }
        self.mark(")")
    }

    fn assign(&mut self) -> Option<()> {
        let name = self.name()?;
        let net = *self.numbers.get(name)?;
        self.mark("=")?;
        let right_side = self.shift()?;
        self.mark(";")?;
        let earlier = self.module.right_sides[net].replace(right_side);
        self.module.order.push(net);
        (net > 0 && earlier.is_none()).then_some(())
    }

    /// Shifts bind least, and from the left.
    fn shift(&mut self) -> Option<Expression> {
        let mut left = self.sum()?;
        while self.mark("<<<").is_some() {
            left = Expression::Shift(left.into(), self.sum()?.into());
        }
        Some(left)
    }

    fn sum(&mut self) -> Option<Expression> {
        let mut left = self.operand()?;
        loop {
            if self.mark("+").is_some() {
                left = Expression::Sum(left.into(), self.operand()?.into());
            } else if self.mark("-").is_some() {
                left = Expression::Difference(left.into(), self.operand()?.into());
            } else {
                return Some(left);
            }
        }
    }

    /// A minus sign stands before a net, a number or parentheses, and binds most.
    fn operand(&mut self) -> Option<Expression> {
        match self.mark("-") {
            Some(()) => Some(Expression::Minus(self.primary()?.into())),
            None => self.primary(),
        }
    }

    fn primary(&mut self) -> Option<Expression> {
        match self.tokens.next()? {
            Token::Name(name) => Some(Expression::Net(*self.numbers.get(name)?)),
            Token::Number(number) => Some(Expression::Number(*number)),
            Token::Mark("(") => {
                let inside = self.shift()?;
                self.mark(")")?;
                Some(inside)
            }
            _ => None,
        }
    }

    fn whole(&mut self) -> Option<()> {
        self.keyword("module")?;
        self.module.name = self.name()?.into();
        self.ports()?;
        self.mark(";")?;
        while self.keyword("endmodule").is_none() {
            if self.keyword("wire").is_some() {
                self.net()?;
                self.mark(";")?;
            } else {
                self.keyword("assign")?;
                self.assign()?;
            }
        }
        let assigned = self.module.order.len() + 1 == self.module.nets.len();
        (assigned && self.tokens.len() == 0).then_some(())
    }
}

pub fn module(tokens: &[Token]) -> Option<Module> {
    let mut reader = Reader {
        tokens: tokens.iter(),
        numbers: HashMap::new(),
        module: Module {
            name: String::new(),
            nets: Vec::new(),
            outputs: 0,
            right_sides: Vec::new(),
            order: Vec::new(),
        },
    };
    reader.whole()?;
    Some(reader.module)
}
