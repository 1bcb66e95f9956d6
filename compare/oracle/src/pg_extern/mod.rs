pub mod entity;

pub mod attribute {
    pub struct Attribute;
}

pub struct NameMacro;
pub struct PgCast;
pub struct PgExtern;
pub struct PgExternArgument;
pub struct PgOperator;
