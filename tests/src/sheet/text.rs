//! The sheet's text: RFC 4180, every line closed by CR LF, seven columns.

use crate::answer::Answer;
use crate::building::call::{Built, Row, TapRow};
use crate::network::NONE;

const COLUMNS: [&str; 7] = ["kind", "number", "left", "shift", "sign", "right", "value"];

fn line(fields: [&str; 7]) -> String {
    fields.join(",") + "\r\n"
}

fn header() -> String {
    line(COLUMNS)
}

/// A sign is stored as its character's code.
fn sign_text(sign: u32) -> String {
    char::from_u32(sign).unwrap().to_string()
}

fn node_line(number: usize, row: &Row) -> String {
    let [left, right, shift, sign, value] = *row;
    let (number, value) = (number.to_string(), value.to_string());
    if number == "0" {
        return line(["node", &number, "", "", "", "", &value]);
    }
    let [left, right, shift] = [left, right, shift].map(|field| field.to_string());
    let sign = sign_text(sign);
    line(["node", &number, &left, &shift, &sign, &right, &value])
}

fn tap_line(number: usize, tap: &TapRow, coefficient: i32) -> String {
    let [sign, row, shift] = *tap;
    let (number, value) = (number.to_string(), coefficient.to_string());
    if sign == NONE {
        return line(["tap", &number, "", "", "", "", &value]);
    }
    let [row, shift] = [row, shift].map(|field| field.to_string());
    line(["tap", &number, &row, &shift, &sign_text(sign), "", &value])
}

fn total_line(adders: usize) -> String {
    line(["total", &adders.to_string(), "", "", "", "", ""])
}

/// One for each row but the first, and one for each nonzero coefficient but the first.
fn adders(rows: usize, coefficients: &[i32]) -> usize {
    let mut adders = rows - 1;
    let mut any = false;
    for coefficient in coefficients {
        if *coefficient != 0 {
            adders += any as usize;
            any = true;
        }
    }
    adders
}

/// The sheet of a network with these coefficients.
pub fn built(built: &Built, coefficients: &[i32]) -> String {
    let mut text = header();
    for (number, row) in built.rows.iter().enumerate() {
        text += &node_line(number, row);
    }
    for (number, tap) in built.taps.iter().enumerate() {
        text += &tap_line(number, tap, coefficients[number]);
    }
    text + &total_line(adders(built.rows.len(), coefficients))
}

pub fn refused(refusal: Answer) -> String {
    let (number, place) = (refusal.refusal.to_string(), refusal.place.to_string());
    header() + &line(["refused", &number, "", "", "", "", &place])
}
