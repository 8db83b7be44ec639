//! Messages go nowhere; their arguments are only checked.
#[macro_export]
macro_rules! trace { ($($t:tt)*) => { if false { let _ = ::core::format_args!($($t)*); } } }
#[macro_export]
macro_rules! debug { ($($t:tt)*) => { if false { let _ = ::core::format_args!($($t)*); } } }
#[macro_export]
macro_rules! info { ($($t:tt)*) => { if false { let _ = ::core::format_args!($($t)*); } } }
#[macro_export]
macro_rules! warn { ($($t:tt)*) => { if false { let _ = ::core::format_args!($($t)*); } } }
