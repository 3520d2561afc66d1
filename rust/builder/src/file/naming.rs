//! The names of symbols, written as a text of their own beside the file.

use yestrwyn_types::test_name;

use super::FileBuilder;
use crate::error::BuildError;
use crate::handles::Symbol;

impl FileBuilder {
    /// A new symbol of an arity, 0 to 6, with a name. Where the name is refused no symbol is written.
    ///
    /// ```
    /// # use yestrwyn_builder::{BuildError, FileBuilder};
    /// let mut file = FileBuilder::new();
    /// let departs = file.named(1, "departs")?;
    /// let slot = file.named(0, "21:40")?;
    /// assert_eq!(file.names(), "s0 departs\ns1 21:40\n");
    /// # Ok::<(), BuildError>(())
    /// ```
    pub fn named(&mut self, arity: u8, name: &str) -> Result<Symbol, BuildError> {
        self.free(None, name)?;
        let symbol = self.symbol(arity)?;
        self.names.insert(symbol.number, name.to_string());
        Ok(symbol)
    }

    /// Gives a symbol a name, for example one of a file that was read, or gives it another. A name is of letters and digits of ASCII
    /// and `_-.:/` ([`test_name`]), and no two symbols have the same.
    pub fn name(&mut self, symbol: Symbol, name: &str) -> Result<(), BuildError> {
        self.known(symbol)?;
        self.free(Some(symbol.number), name)?;
        self.names.insert(symbol.number, name.to_string());
        Ok(())
    }

    /// The names as the text of a file of their own, a line for each symbol that has one: `s0 departs`. The command `yestrwyn` prints
    /// readouts, drawings and reports by it. They are no part of the proof file, and the check never sees them.
    pub fn names(&self) -> String {
        self.names.iter().map(|(number, name)| format!("s{number} {name}\n")).collect()
    }

    /// An error unless a word is a name, and that of no symbol but the one it is for.
    fn free(&self, symbol: Option<u16>, name: &str) -> Result<(), BuildError> {
        test_name(name).map_err(BuildError::Name)?;
        let taken = self.names.iter().find(|(_, taken)| *taken == name).map(|(&number, _)| number);
        match taken {
            Some(number) if Some(number) != symbol => Err(BuildError::NameTaken(number)),
            _ => Ok(()),
        }
    }
}
