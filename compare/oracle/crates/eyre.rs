//! In place of the crate eyre: a report is one thin pointer, as there, and is made in functions that are marked as cold.
use std::error::Error;
use std::fmt::{Arguments, Debug, Display, Formatter};

pub struct Report(Box<Inner>);

struct Inner {
    message: String,
    _cause: Option<Box<dyn Error + Send + Sync>>,
}

pub type Result<T, E = Report> = core::result::Result<T, E>;

impl Report {
    #[cold]
    pub fn msg(message: impl Display) -> Self {
        Report(Box::new(Inner { message: message.to_string(), _cause: None }))
    }
}

impl<E: Error + Send + Sync + 'static> From<E> for Report {
    #[cold]
    fn from(error: E) -> Self {
        Report(Box::new(Inner { message: error.to_string(), _cause: Some(Box::new(error)) }))
    }
}

impl Display for Report {
    fn fmt(&self, f: &mut Formatter<'_>) -> std::fmt::Result {
        f.write_str(&self.0.message)
    }
}

impl Debug for Report {
    fn fmt(&self, f: &mut Formatter<'_>) -> std::fmt::Result {
        f.write_str(&self.0.message)
    }
}

pub trait WrapErr<T> {
    fn wrap_err<D: Display>(self, message: D) -> Result<T>;
    fn wrap_err_with<D: Display>(self, message: impl FnOnce() -> D) -> Result<T>;
}

impl<T, E: Into<Report>> WrapErr<T> for core::result::Result<T, E> {
    fn wrap_err<D: Display>(self, message: D) -> Result<T> {
        self.wrap_err_with(|| message)
    }

    fn wrap_err_with<D: Display>(self, message: impl FnOnce() -> D) -> Result<T> {
        self.map_err(|error| Report::msg(format!("{}: {}", message(), error.into())))
    }
}

#[doc(hidden)]
#[cold]
pub fn format_err(arguments: Arguments<'_>) -> Report {
    Report::msg(arguments)
}

#[macro_export]
macro_rules! eyre {
    ($($argument:tt)*) => { $crate::format_err(format_args!($($argument)*)) };
}

#[macro_export]
macro_rules! bail {
    ($($argument:tt)*) => { return Err($crate::eyre!($($argument)*)) };
}
