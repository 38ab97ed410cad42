//! How the minimal forms of a coefficient hang together.
//!
//! Two canonical digits that stand two places apart are linked. A link is taken by moving its upper
//! digit one place down and turning the sign of its lower digit, as 1 0 -1 becomes 0 1 1; with the
//! lower digit at place p, both masks lose 2^p. Between opposite digits a link can be taken where
//! the link just above is not taken or there is none, between equal digits where the link just
//! above is taken. So a minimal form is the canonical masks less one number, the sum of the 2^p of
//! the links taken, and the forms stand in the rising order of that number.

use super::Form;

#[inline(always)]
pub fn canonical(n: i32) -> Form {
    let half = (n >> 1) as i64;
    let sum = n as i64 + half;
    Form {
        plus: (sum & !half) as u32,
        minus: (half & !sum) as u32,
    }
}

/// Links by the place of the lower digit.
#[derive(Clone, Copy)]
pub struct Links {
    pub opposite: u32,
    pub equal: u32,
}

impl Links {
    #[inline(always)]
    pub fn of(Form { plus, minus }: Form) -> Self {
        let (plus_above, minus_above) = (plus >> 2, minus >> 2);
        Links {
            opposite: plus & minus_above | minus & plus_above,
            equal: plus & plus_above | minus & minus_above,
        }
    }

    /// The links that some form takes: an equal one needs an opposite one above it, with nothing
    /// but equal ones between.
    #[inline(always)]
    pub fn ever_taken(self) -> u32 {
        let (mut taken, mut equal) = (self.opposite, self.equal);
        for apart in [2, 4, 8] {
            taken |= equal & taken >> apart;
            equal &= equal >> apart;
        }
        taken | equal & taken >> 16
    }
}

/// How many ways there are to take the links so far: with the next link not taken, and taken.
#[derive(Clone, Copy)]
pub struct Ways {
    pub not_taken: usize,
    pub taken: usize,
    last: u32,
}

impl Ways {
    pub const START: Ways = Ways {
        not_taken: 1,
        taken: 1,
        last: 0,
    };

    /// Where the link at this bit does not touch the last one, nothing binds it.
    #[inline(always)]
    pub fn reach(&mut self, bit: u32) {
        if self.last << 2 != bit {
            self.taken = self.not_taken;
        }
        self.last = bit;
    }

    #[inline(always)]
    pub fn pass(&mut self, opposite: bool) {
        let (one, both) = (self.not_taken, self.not_taken + self.taken);
        self.not_taken = if opposite { both } else { one };
        self.taken = if opposite { one } else { both };
    }
}

#[inline(always)]
pub fn lowest(links: u32) -> u32 {
    links & links.wrapping_neg()
}
