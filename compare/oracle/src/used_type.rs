//! The published file calls functions that are not among the files. Here are the struct that a reading makes, with its fields
//! as there, and what other files call.
use crate::metadata::{FunctionMetadataTypeEntity, SqlMapping, TypeOrigin};

pub struct UsedType;

#[derive(Debug, Clone, Hash, PartialEq, Eq, PartialOrd, Ord)]
pub struct UsedTypeEntity<'a> {
    pub ty_source: &'a str,
    pub full_path: &'a str,
    pub composite_type: Option<&'a str>,
    pub variadic: bool,
    pub default: Option<&'a str>,
    pub optional: bool,
    pub metadata: FunctionMetadataTypeEntity<'a>,
}

impl UsedTypeEntity<'_> {
    pub(crate) fn emits_argument_sql(&self) -> bool {
        !matches!(self.metadata.argument_sql, Ok(SqlMapping::Skip))
    }

    pub fn resolution(&self) -> Option<(&str, TypeOrigin)> {
        self.metadata.resolution.map(|resolution| (resolution.type_ident, resolution.type_origin))
    }
}
