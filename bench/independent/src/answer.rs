//! "An answer is a code, row and place. Each code's number and name live with the answer type."

/// What is handed back by every call.
#[derive(Clone, Copy, PartialEq, Eq, Debug)]
pub struct Answer {
    pub code: Code,
    pub row: u8,
    pub place: usize,
}

impl Answer {
    pub fn new(code: Code, row: u8, place: usize) -> Answer {
        Answer { code, row, place }
    }

    pub fn is_accepted(&self) -> bool {
        self.code == Code::Accepted
    }
}

/// The codes of document 01, and 19, 20 and 26 of document 02, in the order of their numbers.
#[derive(Clone, Copy, PartialEq, Eq, PartialOrd, Ord, Debug, Hash)]
pub enum Code {
    Accepted = 0,
    TooLong = 1,
    NotUtf8 = 2,
    NotHouseXml = 3,
    WrongRoot = 4,
    NotAChild = 5,
    LaterSiblingSeen = 6,
    OverItsCount = 7,
    RequiredAbsent = 8,
    WrongAttributes = 9,
    TextInGroup = 10,
    Empty = 11,
    BadValue = 12,
    RuleBroken = 13,
    NoRoom = 14,
    NotAnImage = 15,
    WrongVersion = 16,
    NoWholeImage = 17,
    NoSuchItem = 18,
    FileTooLong = 19,
    FinerThanAFile = 20,
    OldCode = 26,
}

impl Code {
    pub const ALL: [Code; 22] = [
        Code::Accepted,
        Code::TooLong,
        Code::NotUtf8,
        Code::NotHouseXml,
        Code::WrongRoot,
        Code::NotAChild,
        Code::LaterSiblingSeen,
        Code::OverItsCount,
        Code::RequiredAbsent,
        Code::WrongAttributes,
        Code::TextInGroup,
        Code::Empty,
        Code::BadValue,
        Code::RuleBroken,
        Code::NoRoom,
        Code::NotAnImage,
        Code::WrongVersion,
        Code::NoWholeImage,
        Code::NoSuchItem,
        Code::FileTooLong,
        Code::FinerThanAFile,
        Code::OldCode,
    ];

    pub fn number(self) -> u8 {
        self as u8
    }

    pub fn from_number(number: u8) -> Option<Code> {
        Code::ALL.into_iter().find(|code| code.number() == number)
    }

    /// The code's name, as a technician reads it.
    pub fn name(self) -> &'static str {
        match self {
            Code::Accepted => "accepted",
            Code::TooLong => "too long",
            Code::NotUtf8 => "not UTF-8",
            Code::NotHouseXml => "not house XML",
            Code::WrongRoot => "wrong root or namespace",
            Code::NotAChild => "not a child of its parent",
            Code::LaterSiblingSeen => "later sibling already seen",
            Code::OverItsCount => "over its count",
            Code::RequiredAbsent => "required child absent",
            Code::WrongAttributes => "wrong attributes",
            Code::TextInGroup => "text in a group",
            Code::Empty => "empty",
            Code::BadValue => "value breaks its type",
            Code::RuleBroken => "amount and indicator not together",
            Code::NoRoom => "longer than the buffer",
            Code::NotAnImage => "not an image",
            Code::WrongVersion => "wrong image version",
            Code::NoWholeImage => "no whole image",
            Code::NoSuchItem => "no such item",
            Code::FileTooLong => "file would be too long",
            Code::FinerThanAFile => "fraction finer than a file says",
            Code::OldCode => "retired transaction code",
        }
    }
}

#[cfg(test)]
mod tests {
    use super::*;

    #[test]
    fn numbers_and_codes_match() {
        for (number, code) in (0..=20).chain([26]).zip(Code::ALL) {
            assert_eq!(code.number(), number);
            assert_eq!(Code::from_number(number), Some(code));
        }
        for none in [21, 25, 27, 255] {
            assert_eq!(Code::from_number(none), None);
        }
    }
}
