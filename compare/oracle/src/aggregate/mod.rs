pub mod entity;
pub(crate) mod options;

pub use options::{FinalizeModify, ParallelOption};

pub struct AggregateType;
pub struct AggregateTypeList;
pub struct PgAggregate;
