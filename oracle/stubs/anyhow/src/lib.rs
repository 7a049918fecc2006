//! Stands in for the crate `anyhow`: an error that carries its message.

#[derive(Debug)]
pub struct Error(pub String);

pub type Result<T> = std::result::Result<T, Error>;

#[macro_export]
macro_rules! anyhow {
    ($($message:tt)*) => {
        $crate::Error(format!($($message)*))
    };
}
