//! Sets of flags in a number.
#[macro_export]
macro_rules! bitflags {
    ($($(#[$outer:meta])* $vis:vis struct $name:ident : $t:ty {
        $($(#[$inner:meta])* const $flag:ident = $value:expr;)*
    })*) => { $(
        $(#[$outer])*
        $vis struct $name($t);

        #[allow(dead_code)]
        impl $name {
            $($(#[$inner])* pub const $flag: Self = Self($value);)*
            pub const fn empty() -> Self { Self(0) }
            pub const fn all() -> Self { Self(0 $(| $value)*) }
            pub const fn bits(&self) -> $t { self.0 }
            pub const fn from_bits_truncate(bits: $t) -> Self { Self(bits & Self::all().0) }
            pub const fn contains(&self, other: Self) -> bool { self.0 & other.0 == other.0 }
            pub const fn is_empty(&self) -> bool { self.0 == 0 }
            pub fn insert(&mut self, other: Self) { self.0 |= other.0; }
            pub fn remove(&mut self, other: Self) { self.0 &= !other.0; }
        }
        impl ::core::ops::BitOr for $name {
            type Output = Self;
            fn bitor(self, other: Self) -> Self { Self(self.0 | other.0) }
        }
        impl ::core::ops::BitAnd for $name {
            type Output = Self;
            fn bitand(self, other: Self) -> Self { Self(self.0 & other.0) }
        }
    )* };
}
