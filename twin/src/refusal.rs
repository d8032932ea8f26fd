//! RULES, "Numbers of the answers": the numbers, and the places that go with them.

/// The number of a refusal. The order of the values is the order of the table, so the lowest of several is their minimum.
#[derive(Clone, Copy, Debug, PartialEq, Eq, PartialOrd, Ord, Hash)]
#[repr(u32)]
pub enum Number {
    Length = 1,
    Header = 2,
    Counts = 3,
    TableName = 4,
    CardForm = 5,
    TextForm = 6,
    DeckCard = 7,
    YankCard = 8,
    StoredBit = 9,
    Twice = 10,
    StreamLength = 19,
    Character = 20,
    Columns = 21,
    DirectiveForm = 22,
    NotCarried = 23,
    Nowhere = 24,
    KnownName = 25,
    UnknownYank = 26,
    BarredYank = 27,
    NotFound = 28,
    Backwards = 29,
    BarredCard = 30,
    Limit = 31,
    NewLength = 32,
    CommonName = 37,
    CallOfNoDeck = 40,
    CallOfNoCommonDeck = 41,
    Depth = 42,
    Calls = 43,
    LineRoom = 44,
    PackedLength = 50,
    LastBits = 51,
    ProgramInput = 52,
    PackedRoom = 53,
}

/// A refusal: its number, its place, and for 40 to 44, whose place is an owner number, the sequence number beside it.
#[derive(Clone, Copy, Debug, PartialEq, Eq)]
pub struct Refusal {
    pub number: Number,
    pub place: usize,
    pub sequence: Option<u32>,
}

impl Refusal {
    pub fn new(number: Number, place: usize) -> Refusal {
        Refusal { number, place, sequence: None }
    }

    /// A refusal of a compile names a card.
    pub fn at_card(number: Number, owner: u16, sequence: u32) -> Refusal {
        Refusal { number, place: usize::from(owner), sequence: Some(sequence) }
    }
}
