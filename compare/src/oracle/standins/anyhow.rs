//! Stand-in for `anyhow`: errors that hold a message alone.

/// Stand-in for `anyhow::Error`.
#[derive(Debug)]
pub struct Error(pub String);

/// Stand-in for `anyhow::Result`.
pub type Result<T> = std::result::Result<T, Error>;

/// Stand-in for `anyhow::bail!`.
#[macro_export]
macro_rules! bail {
    ($($message:tt)*) => {
        return Err($crate::Error(format!($($message)*)))
    };
}
