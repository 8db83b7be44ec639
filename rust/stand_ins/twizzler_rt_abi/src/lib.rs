pub mod error {
    #[derive(Debug, Clone, Copy, PartialEq, Eq)]
    pub struct TwzError(u32);
    impl TwzError {
        pub const TIMED_OUT: Self = Self(1);
    }
}

pub type Result<T> = core::result::Result<T, error::TwzError>;

pub mod bindings {
    #[allow(non_camel_case_types)]
    #[derive(Clone, Copy)]
    pub struct object_tie {
        pub id: u128,
    }
}

pub mod object {
    #[derive(Clone, Copy, Debug)]
    pub struct Nonce(pub u128);
}
