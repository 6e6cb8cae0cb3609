//! Stand-in for bitflags: a struct of bits with constants, `|`, `|=`, `&` and `contains`.
#[macro_export]
macro_rules! bitflags {
    ($(#[$attribute:meta])* $vis:vis struct $Name:ident: $Bits:ty { $(const $FLAG:ident = $value:expr;)* }) => {
        $(#[$attribute])*
        $vis struct $Name($Bits);

        impl $Name {
            $(const $FLAG: $Name = $Name($value);)*

            fn contains(self, other: $Name) -> bool {
                self.0 & other.0 == other.0
            }
        }

        impl ::std::ops::BitOr for $Name {
            type Output = $Name;

            fn bitor(self, other: $Name) -> $Name {
                $Name(self.0 | other.0)
            }
        }

        impl ::std::ops::BitOrAssign for $Name {
            fn bitor_assign(&mut self, other: $Name) {
                self.0 |= other.0;
            }
        }

        impl ::std::ops::BitAnd for $Name {
            type Output = $Name;

            fn bitand(self, other: $Name) -> $Name {
                $Name(self.0 & other.0)
            }
        }
    };
}
