use std::fmt;

macro_rules! refusals {
    ($($number:literal $name:ident $about:literal)*) => {
        /// Why a call is refused; nothing has changed. Where several hold, the least number is answered.
        #[derive(Clone, Copy, Debug, PartialEq, Eq, Hash)]
        #[non_exhaustive]
        pub enum Refusal {
            $(#[doc = $about] $name,)*
            /// A number that this crate doesn't know.
            Other(u32),
        }

        impl Refusal {
            pub(crate) fn of(number: u32) -> Refusal {
                match number {
                    $($number => Refusal::$name,)*
                    other => Refusal::Other(other),
                }
            }

            /// The number that docs/SCRIPT.md has, or one from 100 on that calls alone answer.
            pub fn number(self) -> u32 {
                match self {
                    $(Refusal::$name => $number,)*
                    Refusal::Other(number) => number,
                }
            }

            /// The name that docs/SCRIPT.md has.
            pub fn name(self) -> &'static str {
                match self {
                    $(Refusal::$name => stringify!($name),)*
                    Refusal::Other(_) => "Other",
                }
            }
        }
    };
}

refusals! {
    1 LongLine "A line of more than 4,194,304 bytes."
    2 BadLine "A line of no form of the script."
    3 BadMoment "A moment that is out of range, or a word that is none."
    4 BadId "An id that isn't 1 to 128 letters, digits, `_` and `-`."
    5 BadNumber "A number of the body that is none, doesn't fit, or names a member."
    6 BadJson "A body that is no JSON, or is nested more than 127 deep."
    7 NotObject "A body that is no JSON object."
    8 WrongKind "`objectType` is a text other than the kind's."
    9 IdMismatch "`id` is a text other than the id of the call."
    10 Missing "A required member is absent or null."
    11 WrongType "A member or element of another JSON kind, or an interval's `id` that isn't whole or in range."
    12 BadText "A text, or a payload type, outside its length or characters."
    13 BadDateTime "A `start` that is no instant."
    14 BadDuration "A text that is no duration."
    15 NegativeDuration "A duration below zero."
    16 BadPriority "A priority that isn't whole, is below 0 or above 4,294,967,295."
    17 BadShape "Values that don't have the shape of their payload type."
    18 TooMany "A list above its limit."
    19 NoStart "The first interval has no start anywhere."
    20 AfterEndless "An interval without its own period after an endless one."
    21 TimeRange "An end outside the range of instants."
    22 Exists "A create of an id that is there."
    23 NotThere "A change or delete of an id that isn't there."
    24 NoProgram "An event names no program that is there."
    25 NoVen "A resource names no ven that is there."
    26 InUse "A delete of a program that an event names, or of a ven that a resource names."
    27 Full "A limit of the objects, the entries, the edits or the publications."
    28 BadWindow "A window whose start isn't before its end."
    29 UnknownResource "The publication has no such resource."
    98 NoRuntime "No runtime."
    99 NoMemory "A growth of memory was refused."
    100 Closed "A handle that is closed."
    101 Open "A handle that is open already."
    102 BadTie "A rule for ties that is none."
    103 BadKind "A kind of object that is none."
}

impl fmt::Display for Refusal {
    fn fmt(&self, f: &mut fmt::Formatter<'_>) -> fmt::Result {
        write!(f, "{} {}", self.number(), self.name())
    }
}

impl std::error::Error for Refusal {}

pub(crate) fn done(code: u32) -> Result<(), Refusal> {
    if code == 0 {
        Ok(())
    } else {
        Err(Refusal::of(code))
    }
}
