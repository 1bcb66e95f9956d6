mod entity;
mod return_variant;
mod sql_translatable;

pub use entity::*;
pub use return_variant::*;
pub use sql_translatable::*;

pub(crate) use sql_translatable::numeric_sql_string;
