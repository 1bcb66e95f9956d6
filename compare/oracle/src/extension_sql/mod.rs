pub mod entity;

use entity::{SqlDeclaredEntity, SqlDeclaredFunctionEntityData, SqlDeclaredTypeEntityData};

pub struct ExtensionSqlFile;

pub enum SqlDeclared {
    Type(String),
    Enum(String),
    Function(String),
}

/// Makes declarations for the comparison: their fields cannot be named outside this crate.
pub struct ExtensionSql;

impl ExtensionSql {
    pub fn declared_type(name: String, type_ident: String, sql: String) -> SqlDeclaredEntity {
        SqlDeclaredEntity::Type(SqlDeclaredTypeEntityData { sql, name, type_ident })
    }

    pub fn declared_enum(name: String, type_ident: String, sql: String) -> SqlDeclaredEntity {
        SqlDeclaredEntity::Enum(SqlDeclaredTypeEntityData { sql, name, type_ident })
    }

    pub fn declared_function(name: String, sql: String) -> SqlDeclaredEntity {
        SqlDeclaredEntity::Function(SqlDeclaredFunctionEntityData { sql, name })
    }

    /// The kind of a declaration, its name, its type_ident and its SQL text.
    pub fn declared_parts(declared: &SqlDeclaredEntity) -> (u8, &str, Option<&str>, &str) {
        match declared {
            SqlDeclaredEntity::Type(data) => (1, &data.name, Some(&data.type_ident), &data.sql),
            SqlDeclaredEntity::Enum(data) => (2, &data.name, Some(&data.type_ident), &data.sql),
            SqlDeclaredEntity::Function(data) => (3, &data.name, None, &data.sql),
        }
    }
}
