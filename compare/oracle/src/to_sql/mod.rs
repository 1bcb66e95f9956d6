pub mod entity;

pub trait ToSql {
    fn to_sql(&self, context: &crate::PgrxSql) -> eyre::Result<String>;
}

pub struct ToSqlConfig;
