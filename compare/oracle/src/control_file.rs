use crate::{PgrxSql, SqlGraphIdentifier, ToSql};

#[derive(Debug, Clone, Hash, PartialEq, Eq, PartialOrd, Ord)]
pub struct ControlFile;

impl SqlGraphIdentifier for ControlFile {
    fn dot_identifier(&self) -> String {
        String::new()
    }

    fn rust_identifier(&self) -> String {
        String::new()
    }

    fn file(&self) -> Option<&str> {
        None
    }

    fn line(&self) -> Option<u32> {
        None
    }
}

impl ToSql for ControlFile {
    fn to_sql(&self, _context: &PgrxSql) -> eyre::Result<String> {
        Ok(String::new())
    }
}
