//! Names of machines and causes. The engine knows numbers only.

use super::words::quoted;
use crate::command::NO_CAUSE;
use std::collections::BTreeMap;

/// Names of machines and causes. A number has one name and a name one number.
#[derive(Clone, Debug, Default, PartialEq)]
pub struct Names {
    machines: Table,
    causes: Table,
}

/// Names by number and numbers by name.
#[derive(Clone, Debug, Default, PartialEq)]
struct Table {
    names: BTreeMap<u32, String>,
    numbers: BTreeMap<String, u32>,
}

/// Among more names nothing like a wrong one is looked for.
const MOST_COMPARED: usize = 1000;

/// What a name is given to.
#[derive(Clone, Copy, Debug, PartialEq, Eq)]
pub enum Named {
    /// A machine.
    Machine,
    /// A cause.
    Cause,
}

impl Named {
    pub(crate) fn word(self) -> &'static str {
        match self {
            Self::Machine => "machine",
            Self::Cause => "cause",
        }
    }

    /// The largest number that can be given a name: the last machine, the last cause that can be set.
    pub(crate) fn last(self) -> u32 {
        match self {
            Self::Machine => 15,
            Self::Cause => NO_CAUSE - 1,
        }
    }
}

impl Names {
    fn table(&self, named: Named) -> &Table {
        match named {
            Named::Machine => &self.machines,
            Named::Cause => &self.causes,
        }
    }

    /// Gives a name, or says what stands against it.
    pub(crate) fn add(&mut self, named: Named, number: u32, name: &str) -> Result<(), String> {
        let word = named.word();
        if let Some(other) = self.given(named, number) {
            return Err(format!(
                "{word} {number} is named {} already",
                quoted(other)
            ));
        }
        if let Some(other) = self.number(named, name) {
            return Err(format!(
                "{} is the name of {word} {other} already",
                quoted(name)
            ));
        }
        let table = match named {
            Named::Machine => &mut self.machines,
            Named::Cause => &mut self.causes,
        };
        table.names.insert(number, name.to_string());
        table.numbers.insert(name.to_string(), number);
        Ok(())
    }

    /// The number that has this name.
    #[must_use]
    pub fn number(&self, named: Named, name: &str) -> Option<u32> {
        self.table(named).numbers.get(name).copied()
    }

    /// The names of a kind among which a wrong one may be meant: all, or none where they are very many.
    pub(crate) fn to_compare(&self, named: Named) -> Vec<&str> {
        let names = &self.table(named).names;
        let few = Some(names).filter(|names| names.len() <= MOST_COMPARED);
        few.into_iter()
            .flat_map(BTreeMap::values)
            .map(String::as_str)
            .collect()
    }

    /// The name as given.
    #[must_use]
    pub fn given(&self, named: Named, number: u32) -> Option<&str> {
        self.table(named).names.get(&number).map(String::as_str)
    }

    /// The name, or `machine 3`.
    #[must_use]
    pub fn machine(&self, number: u8) -> String {
        self.shown(Named::Machine, u32::from(number))
    }

    /// The name, or `cause 7`; `censored` for the number that stands for it.
    #[must_use]
    pub fn cause(&self, number: u32) -> String {
        if number == NO_CAUSE {
            return "censored".to_string();
        }
        self.shown(Named::Cause, number)
    }

    fn shown(&self, named: Named, number: u32) -> String {
        let given = self.given(named, number).map(str::to_string);
        given.unwrap_or_else(|| format!("{} {number}", named.word()))
    }
}
