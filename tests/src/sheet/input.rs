//! What the program is handed: the bytes on standard input, and its first argument.

/// The argument is missing where it is none.
#[derive(Clone, Debug, PartialEq, Eq)]
pub struct Input {
    pub bytes: Vec<u8>,
    pub argument: Option<Vec<u8>>,
}

/// Eight bytes a tap, low byte first.
pub fn packed(taps: &[f64]) -> Vec<u8> {
    taps.iter().flat_map(|tap| tap.to_le_bytes()).collect()
}

impl Input {
    pub fn new(taps: &[f64], argument: &str) -> Self {
        Input {
            bytes: packed(taps),
            argument: Some(argument.into()),
        }
    }

    pub fn without_argument(taps: &[f64]) -> Self {
        Input {
            bytes: packed(taps),
            argument: None,
        }
    }

    /// A few words for a failed test.
    pub fn show(&self) -> String {
        let front = &self.bytes[..self.bytes.len().min(80)];
        let argument = self.argument.as_ref().map(|text| {
            let shown = String::from_utf8_lossy(&text[..text.len().min(40)]);
            format!("{shown:?} of {} bytes", text.len())
        });
        let count = self.bytes.len();
        format!("{count} bytes, argument {argument:?}, first bytes {front:02x?}")
    }
}
