//! The kit's crate `bitflags`, with the calls of the crate bitflags that users of the flags make.

/// A flag and its name.
pub struct Flag<B> {
    pub name: &'static str,
    pub value: B,
}

/// The names of a type's flags, its operators, and the calls that the crate bitflags gives it, which are
/// inherent as there. The kit's clauses: `contains`: whether all bits of the other are set; `set`: they are
/// set, or cleared.
macro_rules! bitflag_items {
    (impl $name:ident: $bits:ty {
        $($(#[$($attr:tt)*])* const $flag:ident = $value:expr;)*
    }) => {
        impl $name {
            $($(#[$($attr)*])* pub const $flag: $name = $name($value);)*

            pub(crate) const FLAGS: &'static [$crate::kit::bitflags::Flag<$name>] = &[
                $($crate::kit::bitflags::Flag {
                    name: stringify!($flag),
                    value: $name::$flag,
                },)*
            ];

            /// No flag.
            pub const fn empty() -> Self {
                $name(0)
            }

            /// All flags.
            pub const fn all() -> Self {
                $name(0 $(| $name::$flag.0)*)
            }

            /// The bits.
            pub const fn bits(&self) -> $bits {
                self.0
            }

            /// The flags of these bits, if each bit is one of a flag.
            pub const fn from_bits(bits: $bits) -> Option<Self> {
                if bits & !$name::all().0 == 0 { Some($name(bits)) } else { None }
            }

            /// The flags of these bits; the other bits are dropped.
            pub const fn from_bits_truncate(bits: $bits) -> Self {
                $name(bits & $name::all().0)
            }

            /// These bits, whatever they are.
            pub const fn from_bits_retain(bits: $bits) -> Self {
                $name(bits)
            }

            /// The flag with this name.
            pub fn from_name(name: &str) -> Option<Self> {
                let flag = $name::FLAGS.iter().find(|flag| flag.name == name)?;
                Some(flag.value)
            }

            /// Whether no bit is set.
            pub const fn is_empty(&self) -> bool {
                self.0 == 0
            }

            /// Whether all flags are set.
            pub const fn is_all(&self) -> bool {
                $name::all().0 | self.0 == self.0
            }

            /// Whether they share a bit.
            pub const fn intersects(&self, other: Self) -> bool {
                self.0 & other.0 != 0
            }

            /// Whether all bits of the other are set.
            pub const fn contains(&self, other: Self) -> bool {
                self.0 & other.0 == other.0
            }

            /// Sets the bits of the other.
            pub const fn insert(&mut self, other: Self) {
                self.0 |= other.0;
            }

            /// Clears the bits of the other.
            pub const fn remove(&mut self, other: Self) {
                self.0 &= !other.0;
            }

            /// Inverts the bits that the other has.
            pub const fn toggle(&mut self, other: Self) {
                self.0 ^= other.0;
            }

            /// Sets the bits of the other, or clears them.
            pub const fn set(&mut self, other: Self, value: bool) {
                if value { self.insert(other) } else { self.remove(other) }
            }

            /// The bits of both.
            #[must_use]
            pub const fn intersection(self, other: Self) -> Self {
                $name(self.0 & other.0)
            }

            /// The bits of either.
            #[must_use]
            pub const fn union(self, other: Self) -> Self {
                $name(self.0 | other.0)
            }

            /// The bits that the other doesn't have.
            #[must_use]
            pub const fn difference(self, other: Self) -> Self {
                $name(self.0 & !other.0)
            }

            /// The bits of one of them.
            #[must_use]
            pub const fn symmetric_difference(self, other: Self) -> Self {
                $name(self.0 ^ other.0)
            }

            /// The flags that are not set.
            #[must_use]
            pub const fn complement(self) -> Self {
                $name(!self.0 & $name::all().0)
            }

            /// The flags that are set, one by one, and then the other bits, if one is set.
            pub fn iter(&self) -> impl Iterator<Item = Self> + use<> {
                let rest = self.difference($name::all());
                let flags = self.iter_names().map(|(_, flag)| flag);
                flags.chain((!rest.is_empty()).then_some(rest))
            }

            /// The flags that are set, one by one, with their names. Bits of no flag are left out.
            pub fn iter_names(&self) -> impl Iterator<Item = (&'static str, Self)> + use<> {
                let all = *self;
                let set = $name::FLAGS.iter().filter(move |flag| all.contains(flag.value));
                set.map(|flag| (flag.name, flag.value))
            }
        }

        $crate::kit::bitflags::bitflag_items!(@ $name BitOr bitor union, BitOrAssign bitor_assign);
        $crate::kit::bitflags::bitflag_items!(@ $name BitAnd bitand intersection, BitAndAssign bitand_assign);
        $crate::kit::bitflags::bitflag_items!(@ $name BitXor bitxor symmetric_difference, BitXorAssign bitxor_assign);
        $crate::kit::bitflags::bitflag_items!(@ $name Sub sub difference, SubAssign sub_assign);

        impl core::ops::Not for $name {
            type Output = $name;

            fn not(self) -> $name {
                self.complement()
            }
        }

        $crate::kit::bitflags::bitflag_items!(# $name Binary Octal LowerHex UpperHex);

        impl Extend<$name> for $name {
            fn extend<T: IntoIterator<Item = $name>>(&mut self, iter: T) {
                iter.into_iter().for_each(|flag| self.insert(flag))
            }
        }

        impl FromIterator<$name> for $name {
            fn from_iter<T: IntoIterator<Item = $name>>(iter: T) -> $name {
                iter.into_iter().fold($name::empty(), $name::union)
            }
        }
    };
    (# $name:ident $($format:ident)*) => {$(
        impl core::fmt::$format for $name {
            fn fmt(&self, f: &mut core::fmt::Formatter<'_>) -> core::fmt::Result {
                core::fmt::$format::fmt(&self.0, f)
            }
        }
    )*};
    (@ $name:ident $op:ident $call:ident $as:ident, $assign:ident $to:ident) => {
        impl core::ops::$op for $name {
            type Output = $name;

            fn $call(self, other: $name) -> $name {
                self.$as(other)
            }
        }

        impl core::ops::$assign for $name {
            fn $to(&mut self, other: $name) {
                *self = self.$as(other);
            }
        }
    };
}
pub(crate) use bitflag_items;
