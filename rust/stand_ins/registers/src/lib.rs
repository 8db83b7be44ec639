pub mod interfaces {
    /// Reading a field of a register as one of its named values.
    pub trait Readable {
        fn read_as_enum<F: crate::Field>(&self, field: F) -> Option<F::Value>;
    }
}

pub trait Field {
    type Value;
    fn value(self) -> Option<Self::Value>;
}
