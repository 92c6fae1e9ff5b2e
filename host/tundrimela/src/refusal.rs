use std::error::Error;
use std::fmt;

/// One line for each refusal: its number, its name, and what it says.
macro_rules! refusals {
    ($($number:literal $name:ident $sentence:literal,)*) => {
        /// Why a call is refused.
        #[derive(Clone, Copy, Debug, PartialEq, Eq, Hash, PartialOrd, Ord)]
        #[repr(u8)]
        pub enum Refusal {
            $(#[doc = $sentence] $name = $number,)*
        }

        impl Refusal {
            /// Every refusal, in the order of the numbers.
            pub const ALL: &'static [Refusal] = &[$(Refusal::$name,)*];

            fn sentence(self) -> &'static str {
                match self {
                    $(Refusal::$name => $sentence,)*
                }
            }
        }
    };
}

refusals! {
    1 InvalidHeaderId "the header's id is not its digest",
    2 UnknownAuthority "the key is not a member's",
    3 MalformedHeader "the header has an unknown worker, or a parent not of the round just below",
    4 InvalidSignature "a signature is not valid",
    5 AuthorityReuse "the same member votes twice",
    6 UnexpectedVote "the vote is not for the current header",
    7 CertificateRequiresQuorum "the certificate's votes are under the quorum",
    8 HeaderRequiresQuorum "the header's parents are under the quorum",
    9 TooOld "the message is of a round that is no longer taken",
    10 BadCommittee "the member list or the depth is outside the domain",
    11 BadShape "another input or a buffer is outside the domain",
    12 NoRoom "a place that the steps would fill is not there",
    13 HistoryMissing "a round that has to hold a certificate holds none",
    14 DigestClash "the digest is held under another origin or round",
    15 Halt "the step would end the node",
}

impl Refusal {
    /// The refusal of a number; none for 0, which is an answer, and for a number not in use.
    pub fn from_number(number: u8) -> Option<Refusal> {
        Self::ALL.iter().copied().find(|x| x.number() == number)
    }

    /// The number of this refusal.
    pub fn number(self) -> u8 {
        self as u8
    }
}

impl fmt::Display for Refusal {
    fn fmt(&self, f: &mut fmt::Formatter) -> fmt::Result {
        f.write_str(self.sentence())
    }
}

impl Error for Refusal {}
