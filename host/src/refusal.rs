//! The refusals, one for each code.

use std::fmt;

macro_rules! refusals {
    ($( $(#[$doc:meta])* $name:ident [$($byte:literal),+] $words:literal; )+) => {
        /// Why a call was refused. A refused call changed no byte of the table.
        /// docs/HANDBOOK.md explains every code.
        ///
        /// Displayed, it is a sentence for the ward's screen, with the code in brackets:
        ///
        /// ```
        /// use beaker::Refusal;
        ///
        /// let refusal = Refusal::NotListed;
        /// assert_eq!(refusal.code(), [0x66, 0x33]);
        /// assert_eq!(refusal.to_string(), "no procedure with this key is registered (66 33)");
        /// assert_eq!(Refusal::from_code(&[0x66, 0x33]), Some(refusal));
        /// ```
        #[derive(Clone, Copy, Debug, PartialEq, Eq, Hash)]
        #[non_exhaustive]
        pub enum Refusal {
            $( $(#[$doc])* $name, )+
        }

        impl Refusal {
            /// Every refusal that there is.
            pub const ALL: &'static [Refusal] = &[$(Refusal::$name),+];

            /// The code: one byte or two.
            pub const fn code(self) -> &'static [u8] {
                match self {
                    $( Refusal::$name => &[$($byte),+], )+
                }
            }

            /// The reason, in plain words.
            const fn words(self) -> &'static str {
                match self {
                    $( Refusal::$name => $words, )+
                }
            }
        }
    };
}

refusals! {
    /// 66 ed: a key, address, slot key or mask of the wrong number of bytes. Only
    /// [`raw`](crate::raw) can meet it.
    WrongBytes [0x66, 0xed] "a key, address, slot or mask does not have its number of bytes";
    /// 66 ef: table length wrong; or, except at set-up, table not sound.
    Unsound [0x66, 0xef] "the storage table was never set up, is damaged, or has a wrong length";
    /// 66 e0: message empty, or data below its minimum.
    Short [0x66, 0xe0] "the message is empty, or too short for its type";
    /// 66 ea: message above 65,536 bytes.
    MessageTooLong [0x66, 0xea] "the message is longer than 65,536 bytes";
    /// aa: type not 0, 3, 4, 5, 6, 7.
    UnknownType [0xaa] "the kernel knows no message of this type";
    /// 66 eb: Null, Set Entry, Delete, Write: data beyond their format.
    Overlong [0x66, 0xeb] "the message is longer than its type allows";
    /// 66 e6: key word with a non-zero byte in its first 8; Register's address word with one in its
    /// first 12.
    LeadingBytes [0x66, 0xe6] "a key or an address in the message is too large";
    /// 66 e4: Register or set-up: key or address zero (set-up: kernel address too).
    Zero [0x66, 0xe4] "a key or an address is zero, which names nobody";
    /// 33: capability index out of range or not covering; a Write into kernel storage; a requested
    /// capability within none held.
    NotCovered [0x33] "the running procedure does not hold the right to do this";
    /// 66 e9: code does not pass.
    CodeFails [0x66, 0xe9] "the contract's code is empty, too long, or uses an opcode not allowed";
    /// 66 e5: capability series malformed: wrong size, type or prefix, non-zero leading bytes, or a
    /// cut end.
    MalformedSeries [0x66, 0xe5] "the capabilities at the message's end are not well formed";
    /// 66 77: more than 255 requested of one type.
    TooMany [0x66, 0x77] "more than 255 capabilities of one type are requested";
    /// 66 e1: key already listed.
    AlreadyListed [0x66, 0xe1] "a procedure with this key is already registered";
    /// 66 e2: Delete of the entry key.
    IsEntry [0x66, 0xe2] "the entry procedure cannot be deleted";
    /// 66 e3: Delete of the current key.
    IsCurrent [0x66, 0xe3] "the running procedure cannot be deleted";
    /// 66 33: Call, Delete, Set Entry, Turn: key not listed.
    NotListed [0x66, 0x33] "no procedure with this key is registered";
    /// 66 e8: list length is 16,777,215.
    ListFull [0x66, 0xe8] "the list of procedures is full";
    /// 66 e7: the table afterwards would need more records than it has room for.
    NoRoom [0x66, 0xe7] "the storage table has no room for this";
}

impl Refusal {
    /// The refusal with this code, if there is one.
    pub fn from_code(code: &[u8]) -> Option<Refusal> {
        Refusal::ALL
            .iter()
            .copied()
            .find(|refusal| refusal.code() == code)
    }
}

impl fmt::Display for Refusal {
    fn fmt(&self, f: &mut fmt::Formatter<'_>) -> fmt::Result {
        write!(f, "{} (", self.words())?;
        for (i, byte) in self.code().iter().enumerate() {
            let parted = if i == 0 { "" } else { " " };
            write!(f, "{parted}{byte:02x}")?;
        }
        write!(f, ")")
    }
}

impl std::error::Error for Refusal {}
