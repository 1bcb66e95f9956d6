pub mod entity;

pub mod attribute {
    pub struct PgTriggerAttribute;
}

pub struct PgTrigger;
