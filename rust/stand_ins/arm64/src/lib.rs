//! One register: the width of physical addresses, 48 bits.
pub mod registers {
    use registers::{Field, interfaces::Readable};

    pub struct Register;
    pub const ID_AA64MMFR0_EL1: Register = Register;

    #[allow(non_snake_case)]
    pub mod ID_AA64MMFR0_EL1 {
        #[derive(Clone, Copy)]
        pub struct PARangeField;
        #[allow(non_upper_case_globals)]
        pub const PARange: PARangeField = PARangeField;
        pub mod PARange {
            #[allow(non_camel_case_types)]
            pub enum Value {
                Bits_32,
                Bits_36,
                Bits_40,
                Bits_42,
                Bits_44,
                Bits_48,
                Bits_52,
            }
        }
    }

    impl Field for ID_AA64MMFR0_EL1::PARangeField {
        type Value = ID_AA64MMFR0_EL1::PARange::Value;
        fn value(self) -> Option<Self::Value> {
            Some(ID_AA64MMFR0_EL1::PARange::Value::Bits_48)
        }
    }

    impl Readable for Register {
        fn read_as_enum<F: Field>(&self, field: F) -> Option<F::Value> {
            field.value()
        }
    }
}
