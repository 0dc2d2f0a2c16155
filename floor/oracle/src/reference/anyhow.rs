//! Stand-in: an error is its message.

#[derive(Debug)]
pub struct Error(pub String);

pub type Result<T, E = Error> = std::result::Result<T, E>;

macro_rules! message {
    ($($part:tt)*) => { $crate::reference::anyhow::Error(format!($($part)*)) };
}
macro_rules! leave {
    ($($part:tt)*) => { return Err($crate::reference::anyhow::Error(format!($($part)*))) };
}
pub(crate) use {leave as bail, message as anyhow};

pub trait Context<T> {
    fn with_context<C: std::fmt::Display>(self, say: impl FnOnce() -> C) -> Result<T>;
}

impl<T> Context<T> for Result<T> {
    fn with_context<C: std::fmt::Display>(self, say: impl FnOnce() -> C) -> Result<T> {
        self.map_err(|e| Error(format!("{}: {}", say(), e.0)))
    }
}

impl<T> Context<T> for Option<T> {
    fn with_context<C: std::fmt::Display>(self, say: impl FnOnce() -> C) -> Result<T> {
        self.ok_or_else(|| Error(say().to_string()))
    }
}
