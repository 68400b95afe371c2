//! Options, sorted by hand.

use super::amounts;
use std::ffi::{OsStr, OsString};
use std::path::Path;

/// The options that a job knows: those with a value, and those without.
#[derive(Clone, Copy)]
pub struct Known {
    pub valued: &'static [&'static str],
    pub bare: &'static [&'static str],
    /// Those of them that may come more than once.
    pub often: &'static [&'static str],
}

/// The words after a job's own, sorted.
pub struct Options {
    plain: Vec<OsString>,
    given: Vec<(String, OsString)>,
}

impl Options {
    pub fn sorted(words: &[OsString], known: Known) -> Result<Options, String> {
        let mut options = Options { plain: Vec::new(), given: Vec::new() };
        let mut words = words.iter();
        while let Some(word) = words.next() {
            match word.to_str().filter(|text| text.starts_with("--")) {
                Some(text) => options.take(text, &mut words, known)?,
                None => options.plain.push(word.clone()),
            }
        }
        Ok(options)
    }

    /// Takes `--name value`, `--name=value` or `--name`.
    fn take<'a>(
        &mut self,
        text: &str,
        rest: &mut impl Iterator<Item = &'a OsString>,
        known: Known,
    ) -> Result<(), String> {
        let (name, joined) = text.split_once('=').map_or((text, None), |(name, value)| (name, Some(value.into())));
        let value = if known.valued.contains(&name) {
            joined.or_else(|| rest.next().cloned()).ok_or_else(|| format!("{name} wants a value"))?
        } else if known.bare.contains(&name) && joined.is_none() {
            OsString::new()
        } else if known.bare.contains(&name) {
            return Err(format!("{name} takes no value"));
        } else {
            return Err(format!("{name} is no option here"));
        };
        if self.has(name) && !known.often.contains(&name) {
            return Err(format!("{name} is given twice"));
        }
        self.given.push((name.to_string(), value));
        Ok(())
    }

    pub fn has(&self, name: &str) -> bool {
        self.values(name).next().is_some()
    }

    fn values<'a>(&'a self, name: &'a str) -> impl Iterator<Item = &'a OsStr> + 'a {
        self.given.iter().filter(move |(given, _)| given == name).map(|(_, value)| value.as_os_str())
    }

    pub fn value(&self, name: &str) -> Option<&OsStr> {
        self.given.iter().find(|(given, _)| given == name).map(|(_, value)| value.as_os_str())
    }

    /// Every number given for an option.
    pub fn amounts(&self, name: &str) -> Result<Vec<u64>, String> {
        let read = |value: &OsStr| {
            let text = value.to_string_lossy();
            amounts::read(&text)
                .ok_or_else(|| format!("{name} wants a number as 65536, 64K or 2^16, and {text} is none"))
        };
        self.values(name).map(read).collect()
    }

    pub fn amount(&self, name: &str) -> Result<Option<u64>, String> {
        Ok(self.amounts(name)?.first().copied())
    }

    /// The one plain word that a job wants.
    pub fn file(&self, what: &str) -> Result<&Path, String> {
        match self.plain.as_slice() {
            [one] => Ok(Path::new(one)),
            [] => Err(format!("{what} is missing")),
            [_, more, ..] => Err(format!("one {what} at a time: {} is too many", more.to_string_lossy())),
        }
    }

    /// For a job that wants none.
    pub fn no_plain(&self) -> Result<(), String> {
        match self.plain.first() {
            None => Ok(()),
            Some(word) => Err(format!("{} is not understood here", word.to_string_lossy())),
        }
    }
}
