//! Rows with tabs between their columns, under the columns' names.

use crate::error::Error;
use crate::output::Output;

/// Prints the names of the columns.
pub fn heading(output: &mut Output, names: &[&str]) -> Result<(), Error> {
    output.print(names.join("\t") + "\n")
}

/// Prints a row. A tab, the end of a line and a backslash within a column are written as `\t`, `\n` and `\\`.
pub fn row(output: &mut Output, columns: &[&dyn Column]) -> Result<(), Error> {
    let mut row = Vec::new();
    for (at, column) in columns.iter().enumerate() {
        if at > 0 {
            row.push(b'\t');
        }
        for &byte in column.bytes().iter() {
            match byte {
                b'\t' => row.extend_from_slice(b"\\t"),
                b'\n' => row.extend_from_slice(b"\\n"),
                b'\\' => row.extend_from_slice(b"\\\\"),
                _ => row.push(byte),
            }
        }
    }
    row.push(b'\n');
    output.print(row)
}

/// What can stand in a column.
pub trait Column {
    fn bytes(&self) -> Vec<u8>;
}

macro_rules! displayed {
    ($($kind:ty),*) => {
        $(impl Column for $kind {
            fn bytes(&self) -> Vec<u8> {
                self.to_string().into_bytes()
            }
        })*
    };
}

displayed!(u32, u64, usize, &str, String);

/// Nothing is an empty column.
impl<Some: Column> Column for Option<Some> {
    fn bytes(&self) -> Vec<u8> {
        self.as_ref().map_or(Vec::new(), Column::bytes)
    }
}

impl Column for crate::input::FileName {
    fn bytes(&self) -> Vec<u8> {
        self.bytes().to_vec()
    }
}
