//! Logging that says nothing.

macro_rules! debug {
    ($($arguments:tt)*) => {{
        let _ = format_args!($($arguments)*);
    }};
}

macro_rules! error {
    ($($arguments:tt)*) => {{
        let _ = format_args!($($arguments)*);
    }};
}

#[cfg_attr(not(debug_assertions), allow(unused_macros))]
macro_rules! info_span {
    ($name:literal) => {
        $crate::shims::bevy_log::Span
    };
}

#[allow(unused_imports)]
pub(crate) use {debug, error, info_span};

#[cfg(debug_assertions)]
pub struct Span;

#[cfg(debug_assertions)]
impl Span {
    pub fn enter(&self) -> &Self {
        self
    }
}
