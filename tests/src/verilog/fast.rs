//! The text written by hand for speed: the core's time is compared with this. The length is counted
//! first, then every line goes straight into the area, its fixed parts as a whole. Four bytes are
//! stored for a number, and what follows is written over those that it does not need: every number
//! stands further from the end.

use crate::answer::{Answer, ACCEPTED};
use crate::network::fast::examine;
use crate::network::{Network, MINUS, MOST_TAPS, NONE, REVERSED};

/// The digits of a number below 10,000, the first in the lowest byte, and how many there are. Both
/// pairs of digits are taken apart at once, in the halves of a word.
#[inline(always)]
fn digits(number: u32) -> ([u8; 4], usize) {
    let high = (number * 5243) >> 19;
    let pairs = high | (number - 100 * high) << 16;
    let tens = ((pairs * 103) >> 10) & 0x000f_000f;
    let all = tens | (pairs - 10 * tens) << 8;
    let zeros = (all | 1 << 24).trailing_zeros() / 8;
    let first = (all | 0x3030_3030) >> (8 * zeros);
    (first.to_le_bytes(), 4 - zeros as usize)
}

#[inline(always)]
fn digit_count(number: u32) -> usize {
    1 + (number > 9) as usize + (number > 99) as usize + (number > 999) as usize
}

/// The digits of all numbers below this one.
fn digits_below(bound: usize) -> usize {
    let past = |least: usize| bound.saturating_sub(least);
    bound + past(10) + past(100) + past(1000)
}

fn length(rows: &[[u32; 5]], taps: &[[u32; 3]]) -> usize {
    let (n, m) = (rows.len(), taps.len());
    let module = 40 + 24 * m + digits_below(m);
    let wires = 22 * n + digits_below(n);
    let row = |[left, right, shift, _, _]: &[u32; 5]| {
        digit_count(*left) + digit_count(*right) + digit_count(*shift)
    };
    let row_digits: usize = rows[1..].iter().map(row).sum();
    let assigns = 15 + 25 * (n - 1) + digits_below(n) - 1 + row_digits;
    let tap = |[sign, row, shift]: &[u32; 3]| match *sign {
        NONE => 1,
        _ => 6 + 3 * (*sign == MINUS) as usize + digit_count(*row) + digit_count(*shift),
    };
    let tap_lines: usize = taps.iter().map(tap).sum();
    module + wires + assigns + 13 * m + digits_below(m) + tap_lines + 10
}

struct Pen<'a> {
    area: &'a mut [u8],
    at: usize,
}

impl Pen<'_> {
    #[inline(always)]
    fn put<const N: usize>(&mut self, piece: &[u8; N]) {
        self.area[self.at..self.at + N].copy_from_slice(piece);
        self.at += N;
    }

    #[inline(always)]
    fn number(&mut self, number: u32) {
        let (digits, count) = digits(number);
        self.area[self.at..self.at + 4].copy_from_slice(&digits);
        self.at += count;
    }

    #[inline(always)]
    fn shifted(&mut self, row: u32, shift: u32) {
        self.put(b"n");
        self.number(row);
        self.put(b" <<< ");
        self.number(shift);
    }

    #[inline(always)]
    fn row(&mut self, i: usize, [left, right, shift, sign, _]: [u32; 5]) {
        self.put(b"assign n");
        self.number(i as u32);
        if sign == REVERSED {
            self.put(b" = n");
            self.number(right);
            self.put(b" - (");
            self.shifted(left, shift);
            self.put(b");\n");
        } else {
            self.put(b" = (");
            self.shifted(left, shift);
            self.put(if sign == MINUS { b") - n" } else { b") + n" });
            self.number(right);
            self.put(b";\n");
        }
    }

    #[inline(always)]
    fn tap(&mut self, k: usize, [sign, row, shift]: [u32; 3]) {
        self.put(b"assign t");
        self.number(k as u32);
        if sign == NONE {
            self.put(b" = 0;\n");
        } else if sign == MINUS {
            self.put(b" = -(");
            self.shifted(row, shift);
            self.put(b");\n");
        } else {
            self.put(b" = ");
            self.shifted(row, shift);
            self.put(b";\n");
        }
    }

    fn lines(&mut self, rows: &[[u32; 5]], taps: &[[u32; 3]]) {
        self.put(b"module smoother(input signed [15:0] x");
        for k in 0..taps.len() {
            self.put(b", output signed [63:0] t");
            self.number(k as u32);
        }
        self.put(b");\n");
        for i in 0..rows.len() {
            self.put(b"wire signed [63:0] n");
            self.number(i as u32);
            self.put(b";\n");
        }
        self.put(b"assign n0 = x;\n");
        for (i, row) in rows.iter().enumerate().skip(1) {
            self.row(i, *row);
        }
        for (k, tap) in taps.iter().enumerate() {
            self.tap(k, *tap);
        }
        self.put(b"endmodule\n");
    }
}

#[inline(never)]
pub fn verilog(network: &Network, text: &mut [u8], length: &mut usize) -> Answer {
    let answer = examine(network, false, &mut [0; MOST_TAPS]);
    if answer != ACCEPTED {
        return answer;
    }
    let rows = &network.rows.as_chunks::<5>().0[..network.row_count];
    let taps = &network.taps.as_chunks::<3>().0[..network.tap_count];
    let needed = self::length(rows, taps);
    if needed > text.len() {
        return Answer {
            refusal: 13,
            place: 0,
        };
    }
    let mut pen = Pen {
        area: &mut text[..needed],
        at: 0,
    };
    pen.lines(rows, taps);
    *length = needed;
    answer
}
