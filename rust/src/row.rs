use crate::ROW_WIDTH;

/// What a row tells of. The format has no other sorts, so a `match` can name them all.
#[derive(Clone, Copy, Debug, PartialEq, Eq, Hash)]
pub enum Sort {
    /// The kind of an entity, with which its rows begin.
    Kind = 1,
    /// Another tag: which of several cases follows.
    Tag = 2,
    /// A flag, 0 or 1.
    Flag = 3,
    /// A number.
    Number = 4,
    /// How many items a list has; their rows follow.
    Count = 5,
    /// A text.
    Text = 6,
}

impl Sort {
    /// The number that stands for the sort in a table, 1 to 6.
    pub const fn number(self) -> u32 {
        self as u32
    }

    /// The sort that a number stands for, if it is 1 to 6.
    pub const fn from_number(number: u32) -> Option<Sort> {
        Some(match number {
            1 => Sort::Kind,
            2 => Sort::Tag,
            3 => Sort::Flag,
            4 => Sort::Number,
            5 => Sort::Count,
            6 => Sort::Text,
            _ => return None,
        })
    }
}

/// One value that was read, or is to be written. [`ROW_WIDTH`] numbers of a table make a row.
///
/// Rows may get more fields in a later version: make one by [`Row::new`], and end its pattern in
/// `..`.
///
/// | sort | offset | value |
/// |---|---|---|
/// | [`Kind`](Sort::Kind) | of its byte | the number of an [`EntityKind`] |
/// | [`Tag`](Sort::Tag) | of its byte | the byte |
/// | [`Flag`](Sort::Flag) | of its byte | 0 or 1 |
/// | [`Number`](Sort::Number) | of its first byte | the number |
/// | [`Count`](Sort::Count) | of its first byte | the count |
/// | [`Text`](Sort::Text) | of the text's first byte, after the length | how many bytes it has |
#[derive(Clone, Copy, Debug, PartialEq, Eq, Hash)]
#[non_exhaustive]
pub struct Row {
    /// What the row tells of.
    pub sort: Sort,
    /// Where it stands, counted from the start of the bytes that were read.
    pub offset: u32,
    /// The value, or a text's length.
    pub value: u32,
}

impl Row {
    /// A row of this sort, offset and value.
    pub const fn new(sort: Sort, offset: u32, value: u32) -> Row {
        Row {
            sort,
            offset,
            value,
        }
    }

    /// The row's numbers, as a table has them: sort, offset, value.
    ///
    /// ```
    /// use pgrxsc::{Row, Sort, ROW_WIDTH};
    ///
    /// let rows = [Row::new(Sort::Tag, 0, 1), Row::new(Sort::Text, 0, 4)];
    /// let table: Vec<u32> = rows.into_iter().flat_map(Row::numbers).collect();
    /// assert_eq!(table.len(), 2 * ROW_WIDTH);
    /// ```
    pub const fn numbers(self) -> [u32; ROW_WIDTH] {
        [self.sort.number(), self.offset, self.value]
    }

    /// The row of a table's numbers, if the first is that of a sort.
    pub const fn from_numbers([sort, offset, value]: [u32; ROW_WIDTH]) -> Option<Row> {
        match Sort::from_number(sort) {
            Some(sort) => Some(Row::new(sort, offset, value)),
            None => None,
        }
    }
}

/// What an entity declares. The format has no other kinds, so a `match` can name them all.
#[derive(Clone, Copy, Debug, PartialEq, Eq, Hash)]
pub enum EntityKind {
    /// A schema.
    Schema = 1,
    /// SQL that the extension's author wrote.
    CustomSql = 2,
    /// A function.
    Function = 3,
    /// A type.
    Type = 4,
    /// An enum type.
    Enum = 5,
    /// The ordering of a type.
    Ord = 6,
    /// The hashing of a type.
    Hash = 7,
    /// An aggregate.
    Aggregate = 8,
    /// A trigger function.
    Trigger = 9,
}

impl EntityKind {
    /// The number that stands for the kind in a section, 1 to 9.
    pub const fn number(self) -> u32 {
        self as u32
    }

    /// The kind that a number stands for, if it is 1 to 9.
    pub const fn from_number(number: u32) -> Option<EntityKind> {
        Some(match number {
            1 => EntityKind::Schema,
            2 => EntityKind::CustomSql,
            3 => EntityKind::Function,
            4 => EntityKind::Type,
            5 => EntityKind::Enum,
            6 => EntityKind::Ord,
            7 => EntityKind::Hash,
            8 => EntityKind::Aggregate,
            9 => EntityKind::Trigger,
            _ => return None,
        })
    }
}
