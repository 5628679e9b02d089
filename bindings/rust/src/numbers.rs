//! Numbers of parties, slots and walks: three kinds that can't be mixed.

use std::fmt;

use crate::Refusal;

/// One kind of number below a limit.
macro_rules! kind_of_number {
    ($(#[$about:meta])* $name:ident below $limit:literal, else $refusal:ident) => {
        $(#[$about])*
        #[derive(Clone, Copy, Debug, PartialEq, Eq, PartialOrd, Ord, Hash)]
        pub struct $name(u8);

        impl $name {
            /// All of them, in order.
            pub const ALL: [$name; $limit] = {
                let mut all = [$name(0); $limit];
                let mut number = 0;
                while number < $limit {
                    all[number] = $name(number as u8);
                    number += 1;
                }
                all
            };

            #[doc = concat!("The number, if it is below ", stringify!($limit), "; else the refusal that a frame with it would get.")]
            pub const fn new(number: u8) -> Result<$name, Refusal> {
                if number < $limit {
                    Ok($name(number))
                } else {
                    Err(Refusal::$refusal)
                }
            }

            /// The plain number.
            pub const fn number(self) -> u8 {
                self.0
            }
        }

        impl TryFrom<u8> for $name {
            type Error = Refusal;

            fn try_from(number: u8) -> Result<$name, Refusal> {
                $name::new(number)
            }
        }

        impl From<$name> for u8 {
            fn from(number: $name) -> u8 {
                number.0
            }
        }

        impl fmt::Display for $name {
            fn fmt(&self, f: &mut fmt::Formatter<'_>) -> fmt::Result {
                self.0.fmt(f)
            }
        }
    };
}

kind_of_number! {
    /// A party, 0 to 7, such as a plug-in. Party 0 is the host.
    ///
    /// ```
    /// use jumperloft::{Party, Refusal};
    ///
    /// assert_eq!(Party::new(7)?.number(), 7);
    /// assert_eq!(Party::new(8), Err(Refusal::NoParty));
    /// assert_eq!(Party::HOST, Party::new(0)?);
    /// assert_eq!(Party::new(7)?.to_string(), "7");
    /// # Ok::<(), Refusal>(())
    /// ```
    Party below 8, else NoParty
}

impl Party {
    /// The host.
    pub const HOST: Party = Party(0);
}

kind_of_number! {
    /// A party's version slot, 0 to 7.
    ///
    /// ```
    /// use jumperloft::{Refusal, Slot};
    ///
    /// const FONTS: Slot = Slot::ALL[0];
    /// assert_eq!(Slot::new(0), Ok(FONTS));
    /// assert_eq!(Slot::new(8), Err(Refusal::OutOfRange));
    /// ```
    ///
    /// A walk is another kind of number:
    ///
    /// ```compile_fail
    /// let slot: jumperloft::Slot = jumperloft::Walk::ALL[0];
    /// ```
    Slot below 8, else OutOfRange
}

kind_of_number! {
    /// A party's walk, 0 or 1.
    ///
    /// ```
    /// use jumperloft::{Refusal, Walk};
    ///
    /// assert_eq!(Walk::new(1), Ok(Walk::ALL[1]));
    /// assert_eq!(Walk::new(2), Err(Refusal::OutOfRange));
    /// ```
    Walk below 2, else OutOfRange
}
