//! Files and standard input.

use crate::error::Error;
use barleychime::engine;
use barleychime::galley::Galley;
use barleychime::list::{self, Extent, List};
use barleychime::record::{opened_on, Record};
use std::ffi::{OsStr, OsString};
use std::fmt;
use std::fs::File;
use std::io::{self, Read};
use std::path::Path;

/// No galley has more bytes: a specification in its second edition, a folio, 4,000 lines, 200 figures, 50 tables and the
/// end.
const LONGEST_GALLEY: u64 = 34 + 6 + 4_250 * 18 + 2;
/// More than any text of a galley or list that can be of use.
const LONGEST_TEXT: u64 = 16 << 20;

/// The name of a file, of any bytes; `-` is standard input.
#[derive(Clone, Debug, PartialEq, Eq)]
pub struct FileName(OsString);

impl From<OsString> for FileName {
    fn from(name: OsString) -> Self {
        FileName(name)
    }
}

/// What remarks call the file: nothing that a terminal would obey.
impl fmt::Display for FileName {
    fn fmt(&self, out: &mut fmt::Formatter) -> fmt::Result {
        if self.is_standard_input() {
            return out.write_str("standard input");
        }
        let shown = self.0.to_string_lossy();
        shown.chars().try_for_each(|c| write!(out, "{}", if c.is_control() { '?' } else { c }))
    }
}

impl FileName {
    pub fn is_standard_input(&self) -> bool {
        self.0 == "-"
    }

    pub fn os(&self) -> &OsStr {
        &self.0
    }

    pub fn bytes(&self) -> &[u8] {
        self.0.as_encoded_bytes()
    }

    /// Where the file is; standard input is nowhere.
    pub fn path(&self) -> Option<&Path> {
        (!self.is_standard_input()).then_some(Path::new(&self.0))
    }

    /// The bytes of a galley. Every refusal is decided within one byte more than the longest galley has, so that an endless
    /// input is refused, too, and no more than that is read.
    pub fn galley(&self) -> Result<Vec<u8>, Error> {
        self.read(LONGEST_GALLEY + 1)
    }

    /// The bytes of a galley that opens on another folio, if one is named; one that is refused is left as it is.
    pub fn galley_on(&self, folio: Option<u32>) -> Result<Vec<u8>, Error> {
        let bytes = self.galley()?;
        match folio {
            Some(folio) if engine::read(&bytes).is_ok() => Ok(opened_on(&bytes, folio)),
            _ => Ok(bytes),
        }
    }

    /// What a galley holds that is not refused; on another folio, if one is named.
    pub fn decoded(&self, bytes: &[u8], folio: Option<u32>) -> Result<Galley, Error> {
        let mut galley = Galley::decode(bytes).ok_or_else(|| Error::NotDecoded { name: self.clone() })?;
        galley.folio = folio.map_or(galley.folio, |folio| folio as usize);
        Ok(galley)
    }

    /// A text of a galley or of a list.
    pub fn text(&self) -> Result<String, Error> {
        let bytes = self.read(LONGEST_TEXT + 1)?;
        if bytes.len() as u64 > LONGEST_TEXT {
            return Err(Error::TooLong { name: self.clone() });
        }
        // The first record of a galley file has zeros in it, which no text has.
        if bytes.contains(&0) && Record::take(&bytes).is_some() {
            return Err(Error::Galley { name: self.clone() });
        }
        let line = |at: usize| bytes[..at].iter().filter(|&&byte| byte == b'\n').count() + 1;
        match std::str::from_utf8(&bytes) {
            // Some editors open a text with this mark.
            Ok(text) => Ok(text.strip_prefix('\u{feff}').unwrap_or(text).to_owned()),
            Err(error) => Err(Error::NotText { name: self.clone(), line: line(error.valid_up_to()) }),
        }
    }

    /// A list for a galley whose lists have so many words a page.
    pub fn list(&self, words: usize, extent: Extent) -> Result<List, Error> {
        list::parse(&self.text()?, words, extent).map_err(|error| Error::List { name: self.clone(), error })
    }

    fn read(&self, most: u64) -> Result<Vec<u8>, Error> {
        let mut bytes = Vec::new();
        let read = match self.is_standard_input() {
            true => io::stdin().lock().take(most).read_to_end(&mut bytes),
            false => File::open(&self.0).and_then(|file| file.take(most).read_to_end(&mut bytes)),
        };
        read.map(|_| bytes).map_err(|error| Error::Read { name: self.clone(), error })
    }
}
