pub mod entity;

pub use entity::Alignment;

pub struct PostgresTypeDerive;
