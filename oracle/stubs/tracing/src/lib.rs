//! Stands in for the crate `tracing`: messages are type-checked and dropped.

#[macro_export]
macro_rules! trace {
    ($($message:tt)*) => {
        { let _ = format_args!($($message)*); }
    };
}

#[macro_export]
macro_rules! debug {
    ($($message:tt)*) => {
        { let _ = format_args!($($message)*); }
    };
}

#[macro_export]
macro_rules! info {
    ($($message:tt)*) => {
        { let _ = format_args!($($message)*); }
    };
}

#[macro_export]
macro_rules! warn {
    ($($message:tt)*) => {
        { let _ = format_args!($($message)*); }
    };
}
