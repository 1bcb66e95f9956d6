//! Builds the rows and the texts of what is to be written, so that a test extension's section takes
//! a few lines:
//!
//! ```
//! use pgrxsc::builder::{Builder, Schema};
//!
//! let mut builder = Builder::new();
//! builder.add(Schema { module_path: "ext::api", name: "api", file: "src/lib.rs", line: 12 });
//! let section = builder.to_section()?;
//! assert_eq!(pgrxsc::Table::new().read_section(&section)?.entities().len(), 1);
//! # Ok::<(), pgrxsc::Refusal>(())
//! ```
//!
//! There is a struct for each of the nine entities: [`Schema`], [`CustomSql`], [`Function`],
//! [`PostgresType`], [`PostgresEnum`], [`PostgresOrd`], [`PostgresHash`], [`Aggregate`] and
//! [`Trigger`]. All of them have a default, so that only the fields that matter need be given:
//!
//! ```
//! use pgrxsc::builder::{Argument, Attribute, Builder, Function, Return, UsedType};
//!
//! let int = UsedType::new("i32", "INT");
//! let mut builder = Builder::new();
//! builder.add(Function {
//!     name: "add",
//!     full_path: "ext::add",
//!     fn_args: &[Argument::new("a", int), Argument::new("b", int)],
//!     fn_return: Return::Type(int),
//!     extern_attrs: &[Attribute::Immutable, Attribute::Strict],
//!     ..Function::default()
//! });
//! let payload = builder.to_payload()?;
//! assert!(pgrxsc::Table::new().read_payload(&payload).is_ok());
//! # Ok::<(), pgrxsc::Refusal>(())
//! ```
//!
//! Fields and cases have the names that pgrx gives them, and stand in the order of their rows;
//! `docs/FORMAT.md` in the repository says what each is. Texts and lists are borrowed.
//!
//! A builder checks nothing. Whether its rows are those of a section, of a payload, of a metadata
//! record or of a mapping, the proved writer decides, by [`Refusal`]s 14 to 16.

mod attributes;
mod entities;
mod types;

pub use attributes::{Attribute, Cast, Declaration, Operator, PositioningRef, ToSqlConfig};
pub use entities::{
    Aggregate, CustomSql, FinalizeModify, Function, ParallelOption, PostgresEnum, PostgresHash,
    PostgresOrd, PostgresType, Schema, Trigger,
};
pub use types::{
    AggregateType, Argument, ArgumentError, Metadata, Resolution, Return, Returns, ReturnsError,
    SqlArrayMapping, SqlMapping, TypeOrigin, UsedType,
};

use crate::ffi::Written;
use crate::writing::written;
use crate::{EntityKind, Refusal, Row, Sort, ROW_WIDTH};
use std::fmt;

/// Rows, and the texts that they tell of, which grow part by part.
///
/// [`add`](Self::add) appends the rows of a whole part, as of an entity. The methods from
/// [`kind`](Self::kind) to [`list`](Self::list) append single rows, which may spell anything, also
/// what no writer accepts.
///
/// ```
/// use pgrxsc::builder::Builder;
/// use pgrxsc::EntityKind;
///
/// // A schema, row by row.
/// let mut builder = Builder::new();
/// builder.kind(EntityKind::Schema).text("ext::api").text("api").text("src/lib.rs");
/// assert_eq!(builder.to_payload().unwrap_err().number(), 14); // the line is missing
/// builder.number(12);
/// assert_eq!(builder.to_payload()?.len(), 38);
/// # Ok::<(), pgrxsc::Refusal>(())
/// ```
#[derive(Clone, Default)]
pub struct Builder {
    rows: Vec<u32>,
    text: Vec<u8>,
}

/// What a [`Builder`] can be given: an entity, or a part of one.
pub trait Part {
    /// Appends the rows of this part.
    fn add_to(&self, builder: &mut Builder);
}

impl<P: Part + ?Sized> Part for &P {
    fn add_to(&self, builder: &mut Builder) {
        (**self).add_to(builder);
    }
}

/// A text.
impl Part for str {
    fn add_to(&self, builder: &mut Builder) {
        builder.text(self);
    }
}

/// A number.
impl Part for u32 {
    fn add_to(&self, builder: &mut Builder) {
        builder.number(*self);
    }
}

impl Builder {
    /// A builder without rows.
    pub const fn new() -> Builder {
        Builder {
            rows: Vec::new(),
            text: Vec::new(),
        }
    }

    /// Appends the rows of a part.
    pub fn add(&mut self, part: impl Part) -> &mut Builder {
        part.add_to(self);
        self
    }

    /// Appends the row of an entity's kind, with which an entity begins.
    pub fn kind(&mut self, kind: EntityKind) -> &mut Builder {
        self.row(Sort::Kind, kind.number())
    }

    /// Appends the row of another tag.
    pub fn tag(&mut self, tag: u8) -> &mut Builder {
        self.row(Sort::Tag, tag.into())
    }

    /// Appends the row of a flag.
    pub fn flag(&mut self, flag: bool) -> &mut Builder {
        self.row(Sort::Flag, flag.into())
    }

    /// Appends the row of a number.
    pub fn number(&mut self, number: u32) -> &mut Builder {
        self.row(Sort::Number, number)
    }

    /// Appends the row of a list's count. The rows of as many items have to follow.
    pub fn count(&mut self, count: u32) -> &mut Builder {
        self.row(Sort::Count, count)
    }

    /// Appends a text, and its row.
    pub fn text(&mut self, text: &str) -> &mut Builder {
        let row = Row::new(
            Sort::Text,
            saturated(self.text.len()),
            saturated(text.len()),
        );
        self.rows.extend(row.numbers());
        self.text.extend(text.as_bytes());
        self
    }

    /// Appends a text that can be missing: a flag, and the text if there is one.
    pub fn option_text(&mut self, text: Option<&str>) -> &mut Builder {
        self.option(text)
    }

    /// Appends a part that can be missing: a flag, and the part if there is one.
    pub fn option<P: Part>(&mut self, part: Option<P>) -> &mut Builder {
        self.flag(part.is_some());
        if let Some(part) = part {
            self.add(part);
        }
        self
    }

    /// Appends a list: the count of its items, then the items.
    pub fn list<P: Part>(&mut self, items: &[P]) -> &mut Builder {
        self.count(saturated(items.len()));
        for item in items {
            self.add(item);
        }
        self
    }

    fn row(&mut self, sort: Sort, value: u32) -> &mut Builder {
        self.rows.extend(Row::new(sort, 0, value).numbers());
        self
    }

    /// The rows, as the writers take them: [`ROW_WIDTH`] numbers each. The offsets of text rows
    /// count from the start of [`lent_text`](Self::lent_text).
    pub fn rows(&self) -> &[u32] {
        &self.rows
    }

    /// The bytes of all texts, one after the other, as the writers take them.
    pub fn lent_text(&self) -> &[u8] {
        &self.text
    }

    /// Writes all entities as a section: [`write_section`](crate::write_section).
    ///
    /// # Errors
    ///
    /// [`Refusal`] 14, unless the rows are those of one entity or more, and 16.
    pub fn to_section(&self) -> Result<Vec<u8>, Refusal> {
        written(Written::Section, &self.rows, &self.text)
    }

    /// Writes one entity as a payload: [`write_payload`](crate::write_payload).
    ///
    /// # Errors
    ///
    /// [`Refusal`] 14, unless the rows are those of exactly one entity, and 16.
    pub fn to_payload(&self) -> Result<Vec<u8>, Refusal> {
        written(Written::Payload, &self.rows, &self.text)
    }

    /// Writes one metadata record: [`write_metadata`](crate::write_metadata).
    ///
    /// # Errors
    ///
    /// [`Refusal`] 14, unless the rows are those of exactly one [`Metadata`], and 16.
    pub fn to_metadata(&self) -> Result<Vec<u8>, Refusal> {
        written(Written::Metadata, &self.rows, &self.text)
    }

    /// Writes one mapping: [`write_mapping`](crate::write_mapping).
    ///
    /// # Errors
    ///
    /// [`Refusal`] 14, unless the rows are those of exactly one [`SqlMapping`], and 16.
    pub fn to_mapping(&self) -> Result<Vec<u8>, Refusal> {
        written(Written::Mapping, &self.rows, &self.text)
    }
}

/// A length or an offset as a row has it. One that does not fit is far above the limit of what is
/// written, so that a row which has the largest number in its place is refused as well.
fn saturated(len: usize) -> u32 {
    u32::try_from(len).unwrap_or(u32::MAX)
}

/// Shows how many rows and bytes of text there are.
impl fmt::Debug for Builder {
    fn fmt(&self, f: &mut fmt::Formatter<'_>) -> fmt::Result {
        f.debug_struct("Builder")
            .field("rows", &(self.rows.len() / ROW_WIDTH))
            .field("text", &self.text.len())
            .finish()
    }
}

#[cfg(test)]
mod tests {
    use super::saturated;

    #[test]
    fn lengths_that_do_not_fit() {
        let most = u32::MAX as usize;
        assert_eq!([0, 7, most].map(saturated), [0, 7, u32::MAX]);
        assert_eq!([most + 1, usize::MAX].map(saturated), [u32::MAX; 2]);
    }
}
