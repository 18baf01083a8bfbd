//! What is said of a call that is wrong: what is wrong with it, what may have been meant, and where to read more, on one line.

use barleychime::field::shown;
use clap::error::{ContextKind, ContextValue, ErrorKind};

/// What is wrong with a call of this command, if one was named.
pub fn in_words(error: &clap::Error, command: Option<&str>) -> String {
    let what = Wrong(error).what();
    match command {
        Some(command) => format!("{command}: {what}; `barleychime help {command}` says more"),
        None => format!("{what}; `barleychime --help` names the commands"),
    }
}

struct Wrong<'a>(&'a clap::Error);

impl Wrong<'_> {
    fn what(&self) -> String {
        let argument = self.words(ContextKind::InvalidArg);
        match self.0.kind() {
            ErrorKind::MissingSubcommand | ErrorKind::DisplayHelpOnMissingArgumentOrSubcommand => {
                "a command is wanted".into()
            }
            ErrorKind::InvalidSubcommand => {
                let name = self.words(ContextKind::InvalidSubcommand);
                format!("{name}: no such command{}", self.meant(ContextKind::SuggestedSubcommand))
            }
            ErrorKind::UnknownArgument if argument.starts_with('-') => {
                format!("{argument}: no such option{}", self.meant(ContextKind::SuggestedArg))
            }
            ErrorKind::UnknownArgument => format!("{argument}: one argument too many"),
            ErrorKind::MissingRequiredArgument => format!("{argument} is wanted"),
            ErrorKind::ArgumentConflict => match self.words(ContextKind::PriorArg) {
                prior if prior.is_empty() || prior == argument => format!("{argument} can stand only once"),
                prior => format!("{argument} cannot stand beside {prior}"),
            },
            ErrorKind::TooManyValues => {
                format!("{argument} takes no value, and {} is one", self.words(ContextKind::InvalidValue))
            }
            ErrorKind::InvalidValue => self.value(&argument),
            ErrorKind::ValueValidation => match std::error::Error::source(self.0) {
                Some(what) => format!("{argument}: {what}"),
                None => format!("{argument}: a wrong value"),
            },
            ErrorKind::InvalidUtf8 => {
                "a word that is not UTF-8 stands where only a file name may be of any bytes".into()
            }
            _ => self.0.kind().as_str().unwrap_or("this call cannot be understood").into(),
        }
    }

    /// A value that is missing, or none of those that are possible.
    fn value(&self, argument: &str) -> String {
        let (found, possible) = (self.words(ContextKind::InvalidValue), self.words(ContextKind::ValidValue));
        match (found.is_empty(), possible.is_empty()) {
            (true, true) => format!("{argument}: its value is missing"),
            (true, false) => format!("{argument}: one of {possible} is wanted"),
            _ => format!("{argument}: {found} is none of {possible}{}", self.meant(ContextKind::SuggestedValue)),
        }
    }

    fn meant(&self, kind: ContextKind) -> String {
        match self.words(kind) {
            none if none.is_empty() => String::new(),
            meant => format!(", perhaps {meant} is meant"),
        }
    }

    /// What clap tells of this kind, as a terminal can show it and without the brackets around names of files.
    fn words(&self, kind: ContextKind) -> String {
        let plain = |word: &str| match word.starts_with(['-', '<', '[']) {
            true => word.replace(['<', '>', '[', ']'], ""),
            false => word.to_owned(),
        };
        let safe = |word: &str| shown(&plain(word)).trim_matches('`').to_owned();
        match self.0.context().find(|(found, _)| *found == kind) {
            Some((_, ContextValue::String(word))) => safe(word),
            Some((_, ContextValue::Strings(words))) => {
                words.iter().map(|word| safe(word)).collect::<Vec<_>>().join(", ")
            }
            _ => String::new(),
        }
    }
}
