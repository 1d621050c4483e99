//! Stands in for anyhow: an error is its message. The judge reads the message to tell which check of the
//! original failed.

pub struct Error(String);

pub type Result<T, E = Error> = std::result::Result<T, E>;

impl Error {
    pub fn msg(message: impl ToString) -> Error {
        Error(message.to_string())
    }
}

impl std::fmt::Display for Error {
    fn fmt(&self, f: &mut std::fmt::Formatter) -> std::fmt::Result {
        f.write_str(&self.0)
    }
}

impl std::fmt::Debug for Error {
    fn fmt(&self, f: &mut std::fmt::Formatter) -> std::fmt::Result {
        f.write_str(&self.0)
    }
}

impl<E: std::error::Error> From<E> for Error {
    fn from(error: E) -> Error {
        Error(error.to_string())
    }
}

pub trait Context<T> {
    fn context(self, message: impl ToString) -> Result<T>;
    fn with_context<M: ToString>(self, message: impl FnOnce() -> M) -> Result<T>;
}

impl<T> Context<T> for Option<T> {
    fn context(self, message: impl ToString) -> Result<T> {
        self.ok_or_else(|| Error::msg(message))
    }
    fn with_context<M: ToString>(self, message: impl FnOnce() -> M) -> Result<T> {
        self.ok_or_else(|| Error::msg(message()))
    }
}

impl<T, E: std::error::Error> Context<T> for std::result::Result<T, E> {
    fn context(self, message: impl ToString) -> Result<T> {
        self.map_err(|_| Error::msg(message))
    }
    fn with_context<M: ToString>(self, message: impl FnOnce() -> M) -> Result<T> {
        self.map_err(|_| Error::msg(message()))
    }
}

#[macro_export]
macro_rules! anyhow {
    ($($t:tt)*) => { $crate::Error::msg(format!($($t)*)) };
}

#[macro_export]
macro_rules! bail {
    ($($t:tt)*) => { return Err($crate::anyhow!($($t)*)) };
}

#[macro_export]
macro_rules! ensure {
    ($cond:expr $(,)?) => {
        if !$cond { return Err($crate::Error::msg(concat!("Condition failed: ", stringify!($cond)))); }
    };
    ($cond:expr, $($t:tt)*) => {
        if !$cond { return Err($crate::anyhow!($($t)*)); }
    };
}
