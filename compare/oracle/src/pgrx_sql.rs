use crate::*;
use petgraph::graph::{Graph, NodeIndex};
use std::collections::HashMap;

pub struct PgrxSql<'a> {
    pub graph: Graph<SqlGraphEntity<'a>>,
    pub externs: HashMap<PgExternEntity<'a>, NodeIndex>,
    pub types: HashMap<PostgresTypeEntity<'a>, NodeIndex>,
    pub enums: HashMap<PostgresEnumEntity<'a>, NodeIndex>,
    pub ords: HashMap<PostgresOrdEntity<'a>, NodeIndex>,
    pub hashes: HashMap<PostgresHashEntity<'a>, NodeIndex>,
    pub aggregates: HashMap<PgAggregateEntity<'a>, NodeIndex>,
    pub triggers: HashMap<PgTriggerEntity<'a>, NodeIndex>,
}

impl PgrxSql<'_> {
    pub fn schema_prefix_for(&self, _node: &NodeIndex) -> String {
        String::new()
    }

    pub fn schema_prefix_for_used_type(
        &self,
        _node: &NodeIndex,
        _slot: &str,
        _used: &UsedTypeEntity,
    ) -> eyre::Result<String> {
        Ok(String::new())
    }

    pub fn get_module_pathname(&self) -> String {
        String::new()
    }

    pub fn find_matching_fn(&self, _name: &str) -> Option<&PgExternEntity<'_>> {
        None
    }
}
