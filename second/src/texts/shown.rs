//! What texts show about the very byte of a field (02, request 6): which of the ways to spoil a
//! form were met, and at which byte of fields of which length. A run in which something of this was
//! never seen has compared too little.

use crate::block::{INTEGER_WIDTH, REAL_WIDTH};
use crate::kind::WRONG_FORM;
use crate::number::{has_integer_form, has_real_form, Reading};
use crate::very_byte::{can_be_ended, Form};

/// A field of wrong form, up to its very byte and from there on.
struct Spoilt<'a> {
    field: &'a [u8],
    before: &'a [u8],
    byte: u8,
    form: Form,
}

impl Spoilt<'_> {
    fn is_first(&self) -> bool {
        self.before.is_empty()
    }

    fn is_last(&self) -> bool {
        self.before.len() + 1 == self.field.len()
    }

    /// What stands right before the very byte is one of these.
    fn follows(&self, bytes: &[u8]) -> bool {
        let last = self.before.last();
        last.is_some_and(|last| bytes.contains(last))
    }

    fn is_blank(&self) -> bool {
        self.field.iter().all(|&byte| byte == b' ')
    }

    fn follows_a_number(&self) -> bool {
        self.before.iter().any(u8::is_ascii_digit)
    }

    /// There is nothing wrong with the field but that no more of it is there.
    fn ends_too_soon(&self) -> bool {
        self.is_last() && can_be_ended(self.field, self.field.len() + 2, self.form)
    }

    /// The bytes before, from the exponent's letter on; nothing where none stands.
    fn exponent(&self) -> &[u8] {
        let letter = self.before.iter().position(|byte| b"DE".contains(byte));
        letter.map_or(&[], |letter| &self.before[letter..])
    }

    fn is_third_exponent_digit(&self) -> bool {
        let digits = self.exponent().iter().filter(|byte| byte.is_ascii_digit());
        digits.count() == 2 && self.byte.is_ascii_digit() && !self.follows(b" ")
    }

    fn is_behind_blanks(&self) -> bool {
        self.follows(b" ") && self.follows_a_number()
    }
}

type Sight = (&'static str, fn(&Spoilt) -> bool);

const OF_BOTH: [Sight; 15] = [
    ("first byte of several", |s| {
        s.is_first() && s.field.len() > 1
    }),
    ("inside", |s| !s.is_first() && !s.is_last()),
    ("last byte, wrong as such", |s| {
        s.is_last() && !s.is_first() && !s.ends_too_soon()
    }),
    ("last byte, ends too soon", |s| {
        s.ends_too_soon() && !s.is_blank()
    }),
    ("last byte, all blank", |s| {
        s.ends_too_soon() && s.is_blank()
    }),
    ("one byte alone", |s| s.field.len() == 1),
    ("a second sign", |s| {
        s.follows(b"+-") && b"+-".contains(&s.byte)
    }),
    ("a blank after a sign", |s| {
        s.byte == b' ' && s.follows(b"+-") && !s.follows_a_number()
    }),
    ("a sign after a digit", |s| {
        s.follows(b"0123456789") && b"+-".contains(&s.byte)
    }),
    ("a lower-case letter", |s| s.byte.is_ascii_lowercase()),
    ("a tab", |s| s.byte == b'\t'),
    ("a NUL", |s| s.byte == 0),
    ("a byte above 127", |s| s.byte > 127),
    ("a letter before any digit", |s| {
        b"DE".contains(&s.byte) && !s.follows_a_number()
    }),
    ("right bytes behind it", |s| {
        let behind = &s.field[s.before.len() + 1..];
        !behind.is_empty() && (s.form)(behind)
    }),
];

const OF_INTEGERS: [Sight; 4] = [
    ("a blank after a digit", |s| {
        s.byte == b' ' && s.follows(b"0123456789")
    }),
    ("a blank between digits", |s| {
        let behind = &s.field[s.before.len()..];
        s.byte == b' ' && s.follows_a_number() && behind.iter().any(u8::is_ascii_digit)
    }),
    ("a point", |s| s.byte == b'.'),
    ("an exponent", |s| {
        s.follows_a_number() && b"DE".contains(&s.byte)
    }),
];

const OF_REALS: [Sight; 14] = [
    ("a second point", |s| {
        s.byte == b'.' && s.before.contains(&b'.') && s.exponent().is_empty()
    }),
    ("a point in the exponent", |s| {
        s.byte == b'.' && !s.exponent().is_empty()
    }),
    ("a blank after a bare point", |s| {
        s.byte == b' ' && s.follows(b".") && !s.follows_a_number()
    }),
    ("a letter after a bare point", |s| {
        b"DE".contains(&s.byte) && s.follows(b".") && !s.follows_a_number()
    }),
    ("a blank after a letter", |s| {
        s.byte == b' ' && s.follows(b"DE")
    }),
    ("a blank after a letter and its sign", |s| {
        s.byte == b' ' && s.follows(b"+-") && s.exponent().len() == 2
    }),
    ("a second letter", |s| {
        b"DE".contains(&s.byte) && !s.exponent().is_empty()
    }),
    ("a third exponent digit", |s| s.is_third_exponent_digit()),
    ("a third exponent digit, at the end", |s| {
        s.is_third_exponent_digit() && s.is_last()
    }),
    ("an exponent's sign without a letter", |s| {
        b"+-".contains(&s.byte) && s.follows(b"0123456789.") && s.exponent().is_empty()
    }),
    ("behind blanks, a digit", |s| {
        s.is_behind_blanks() && s.byte.is_ascii_digit()
    }),
    ("behind blanks, a point", |s| {
        s.is_behind_blanks() && s.byte == b'.'
    }),
    ("behind blanks, a letter", |s| {
        s.is_behind_blanks() && b"DE".contains(&s.byte)
    }),
    ("behind blanks, a stranger", |s| {
        s.is_behind_blanks() && !b"0123456789.+-DE".contains(&s.byte)
    }),
];

/// What the fields of one reading have shown.
pub struct Shown {
    name: &'static str,
    form: Form,
    sights: Vec<(Sight, u64)>,
    /// How often byte k of fields of n bytes, at [n][k].
    places: Vec<Vec<u64>>,
    /// How often a kind other than 6 came without a byte.
    no_byte: [u64; KINDS.len()],
}

/// The other kinds that a reading gives.
const KINDS: [u32; 4] = [0, 1, 7, 8];

impl Shown {
    pub fn of_integers() -> Shown {
        Shown::new("integer", has_integer_form, &OF_INTEGERS, INTEGER_WIDTH)
    }

    pub fn of_reals() -> Shown {
        Shown::new("real", has_real_form, &OF_REALS, REAL_WIDTH)
    }

    fn new(name: &'static str, form: Form, own: &[Sight], longest: usize) -> Shown {
        let sights = OF_BOTH.iter().chain(own).map(|&sight| (sight, 0));
        Shown {
            name,
            form,
            sights: sights.collect(),
            places: (0..=longest).map(|length| vec![0; length + 1]).collect(),
            no_byte: [0; KINDS.len()],
        }
    }

    pub fn see(&mut self, field: &[u8], reading: Reading) {
        if reading.kind != WRONG_FORM {
            let place = KINDS.iter().position(|&kind| kind == reading.kind);
            let place = place.expect("no reading gives another kind");
            self.no_byte[place] += u64::from(reading.byte == 0);
            return;
        }
        let place = reading.byte as usize;
        self.places[field.len()][place] += 1;
        let spoilt = Spoilt {
            field,
            before: &field[..place - 1],
            byte: field[place - 1],
            form: self.form,
        };
        for ((_, holds), times) in &mut self.sights {
            *times += u64::from(holds(&spoilt));
        }
    }

    pub fn print(&self) {
        println!("very bytes, {}", self.name);
        for ((name, _), times) in &self.sights {
            println!("  {name:<40} {times:>8}");
        }
        let places = self.places.iter().flat_map(|row| row.iter().skip(1));
        println!("  at the rarest byte {:>30}", places.min().unwrap_or(&0));
    }

    /// An integer is never too large or too fine.
    fn kinds(&self) -> impl Iterator<Item = (u32, u64)> + '_ {
        let kinds = KINDS.into_iter().zip(self.no_byte);
        kinds.filter(|(kind, _)| self.name == "real" || *kind < WRONG_FORM)
    }

    pub fn never_seen(&self) -> Vec<String> {
        let mut found = Vec::new();
        for ((name, _), _) in self.sights.iter().filter(|(_, times)| *times == 0) {
            found.push(format!("{}, {name} never seen", self.name));
        }
        for (length, row) in self.places.iter().enumerate() {
            let unseen = (1..=length).filter(|&byte| row[byte] == 0);
            found
                .extend(unseen.map(|byte| {
                    format!("{}, byte {byte} of {length} bytes never seen", self.name)
                }));
        }
        let unseen = self.kinds().filter(|(_, times)| *times == 0);
        found.extend(
            unseen.map(|(kind, _)| format!("{}, kind {kind} without a byte never seen", self.name)),
        );
        found
    }
}
