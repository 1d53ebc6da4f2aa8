//! The items of a format, by a lexer of its own: "An item is a byte with the decimal digits it takes." What each means by itself,
//! and by which number it is refused, for the plain readings.

/// The digits that an item takes, as a number.
#[derive(Clone, Copy, Debug, PartialEq, Eq)]
pub enum Numeral {
    Absent,
    Number(u64),
    /// 2^64 or more.
    TooLarge,
}

#[derive(Clone, Copy, Debug)]
pub struct Item {
    /// The item is `format[start..end]`.
    pub start: usize,
    pub end: usize,
    pub option: u8,
    /// The byte that X takes.
    pub aligned: Option<u8>,
    pub numeral: Numeral,
}

/// "Space, tab, line feed and carriage return do nothing."
pub fn is_blank(byte: u8) -> bool {
    matches!(byte, b' ' | b'\t' | b'\n' | b'\r')
}

pub fn items(format: &[u8]) -> Vec<Item> {
    let mut items = Vec::new();
    let mut at = 0;
    while at < format.len() {
        let item = item_at(format, at);
        at = item.end;
        items.push(item);
    }
    items
}

fn item_at(format: &[u8], start: usize) -> Item {
    let option = format[start];
    let aligned = if option == b'X' { format.get(start + 1).copied() } else { None };
    let digits_start = start + 1 + usize::from(aligned.is_some());
    // "i I l L c s ! take all digits that follow; no other does. X takes the next byte too, and after it the digits
    // if it is i I l L f."
    let takes_digits = match aligned {
        Some(next) => matches!(next, b'i' | b'I' | b'l' | b'L' | b'f'),
        None => matches!(option, b'i' | b'I' | b'l' | b'L' | b'c' | b's' | b'!'),
    };
    let digits = match takes_digits {
        true => format[digits_start..].iter().take_while(|byte| byte.is_ascii_digit()).count(),
        false => 0,
    };
    let end = digits_start + digits;
    Item { start, end, option, aligned, numeral: numeral(&format[digits_start..end]) }
}

fn numeral(digits: &[u8]) -> Numeral {
    if digits.is_empty() {
        return Numeral::Absent;
    }
    let value =
        digits.iter().try_fold(0_u64, |number, digit| number.checked_mul(10)?.checked_add(u64::from(digit - b'0')));
    value.map_or(Numeral::TooLarge, Numeral::Number)
}

/// The bytes of a number that is written: its option's size, where that is admitted.
fn number_size(option: u8, numeral: Numeral) -> Option<u64> {
    match (option, numeral) {
        (b'b' | b'B', _) => Some(1),
        (b'h' | b'H', _) => Some(2),
        (b'f', _) | (b'i' | b'I' | b'l' | b'L', Numeral::Absent) => Some(4),
        (b'd' | b'n' | b'j' | b'J' | b'T', _) => Some(8),
        (b'i' | b'I' | b'l' | b'L', Numeral::Number(size @ 1..=16)) => Some(size),
        _ => None,
    }
}

impl Item {
    /// The size of a number.
    pub fn size(&self) -> Option<u64> {
        match self.aligned {
            Some(_) => None,
            None => number_size(self.option, self.numeral),
        }
    }

    /// What X aligns by, before the limit; none where X is refused.
    pub fn natural(&self) -> Option<u64> {
        match self.aligned? {
            b' ' | b'\t' | b'\n' | b'\r' | b'X' | b'<' | b'>' | b'=' | b'!' | b'c' | b's' | b'z' | b'x' => None,
            128.. => None,
            b'i' | b'I' | b'l' | b'L' => number_size(b'i', self.numeral),
            other => Some(number_size(other, Numeral::Absent).unwrap_or(1)),
        }
    }

    /// The length in front of an s text, where its size is admitted.
    pub fn prefix(&self) -> Option<u64> {
        match (self.option, self.numeral) {
            (b's', Numeral::Absent) => Some(8),
            (b's', Numeral::Number(size @ 1..=16)) => Some(size),
            _ => None,
        }
    }

    /// What the item aligns by, before the limit: a number by its size, s by that of its length, X by what it takes.
    pub fn aligned_by(&self) -> u64 {
        self.size().or(self.prefix()).or(self.natural()).unwrap_or(1)
    }

    /// The option has a text as long as its value's.
    pub fn is_open(&self) -> bool {
        matches!(self.option, b'z' | b's')
    }

    /// The refusal of an item by itself: 1 to 8, but for 6.
    pub fn refusal(&self) -> Option<u64> {
        let numeral = |number: u64, admitted: fn(u64) -> Option<u64>| match self.numeral {
            Numeral::TooLarge => Some(2),
            Numeral::Absent => None,
            Numeral::Number(n) if !(1..=16).contains(&n) => Some(number),
            Numeral::Number(n) => admitted(n),
        };
        let size = || numeral(3, |_| None);
        match (self.option, self.aligned) {
            (b'X', Some(128..)) => Some(1),
            (b'X', None | Some(b'X' | b'<' | b'>' | b'=' | b'!' | b'c' | b's' | b'z' | b'x')) => Some(7),
            (b'X', Some(next)) if is_blank(next) => Some(7),
            (b'X', Some(b'f')) => None,
            (b'X', Some(_)) | (b'i' | b'I' | b'l' | b'L' | b's', _) => size(),
            (b'!', _) => numeral(4, |limit| (!limit.is_power_of_two()).then_some(5)),
            (b'c', _) => match self.numeral {
                Numeral::Absent => Some(8),
                Numeral::TooLarge => Some(2),
                Numeral::Number(_) => None,
            },
            (b'x' | b'<' | b'>' | b'=', _) => None,
            (option, _) => (!is_blank(option) && !self.has_value()).then_some(1),
        }
    }

    /// The option takes a value in writing and gives one in reading.
    pub fn has_value(&self) -> bool {
        matches!(
            self.option,
            b'b' | b'B'
                | b'h'
                | b'H'
                | b'i'
                | b'I'
                | b'l'
                | b'L'
                | b'j'
                | b'J'
                | b'T'
                | b'f'
                | b'd'
                | b'n'
                | b'c'
                | b'z'
                | b's'
        )
    }
}

/// What the settings before an item have made of the start state.
#[derive(Clone, Copy)]
pub struct Settings {
    pub big: bool,
    pub limit: u64,
}

impl Settings {
    pub const START: Settings = Settings { big: false, limit: 1 };

    /// After an item. A `!` that is refused changes nothing.
    pub fn after(self, item: &Item) -> Settings {
        match (item.option, item.numeral) {
            (b'<' | b'=', _) => Settings { big: false, ..self },
            (b'>', _) => Settings { big: true, ..self },
            (b'!', Numeral::Absent) => Settings { limit: 8, ..self },
            (b'!', Numeral::Number(limit @ (1 | 2 | 4 | 8 | 16))) => Settings { limit, ..self },
            _ => self,
        }
    }

    /// The zeros before something of this natural size at this offset, where its alignment is admitted.
    pub fn padding(self, natural: u64, offset: u64) -> Option<u64> {
        let alignment = natural.min(self.limit);
        alignment.is_power_of_two().then(|| (alignment - offset % alignment) % alignment)
    }
}
