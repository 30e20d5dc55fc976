//! The very byte of a field (02, request 6; READINGS-02, 6.1, 6.4, 6.5): the examples, that the
//! endings tried are as good as all there are, and that the texts compared tell each slip from it.
//! Where it stands in a block is for tests/typo.rs.

use second::dice::Dice;
use second::examples::{
    Example, Spoilt, INTEGERS, INTEGER_BYTES, POINTLESS_REALS, REALS, REAL_BYTES,
};
use second::number::{has_integer_form, has_real_form, integer, real, Reading};
use second::texts::{spelling, FAMILIES};
use second::very_byte::{can_be_ended, Form};
use std::collections::BTreeSet;

/// A reading, its form, and its name.
type Read = (fn(&[u8]) -> Reading, Form, &'static str);

const BOTH: [Read; 2] = [
    (integer, has_integer_form, "integer"),
    (real, has_real_form, "real"),
];

fn refused(byte: u32) -> Reading {
    Reading {
        kind: 6,
        value: 0,
        byte,
    }
}

#[test]
fn examples() {
    for (table, reading) in [
        (INTEGER_BYTES, integer as fn(&[u8]) -> Reading),
        (REAL_BYTES, real),
    ] {
        for &(text, byte) in table {
            assert_eq!(reading(text), refused(byte), "\"{}\"", text.escape_ascii());
        }
    }
}

/// Of the older examples, each of wrong form has its byte in the table.
#[test]
fn every_example_of_wrong_form_has_its_byte() {
    let has_byte = |table: &[Spoilt], &(text, kind, _): &Example| {
        kind != 6 || table.iter().any(|&(known, _)| known == text)
    };
    assert!(INTEGERS.iter().all(|row| has_byte(INTEGER_BYTES, row)));
    let reals = REALS.iter().chain(POINTLESS_REALS);
    for row in reals {
        assert!(has_byte(REAL_BYTES, row), "{row:?}");
    }
}

/// 6.4: a blank field has its last byte, whatever its length; so has one that a sign ends.
#[test]
fn blank_fields_of_every_length() {
    for length in 1..=24_usize {
        let mut text = vec![b' '; length];
        let last = refused(length as u32);
        assert_eq!(real(&text), last);
        text[length - 1] = b'+';
        assert_eq!(real(&text), last);
        if length <= 6 {
            assert_eq!(integer(&text), last);
            text[length - 1] = b' ';
            assert_eq!(integer(&text), last);
        }
    }
}

/// One byte of every sort, and one of none.
const SORTS: &[u8] = b" +-.7DEx";

/// All texts of so many bytes over these.
fn all_texts(sorts: &[u8], length: usize) -> impl Iterator<Item = Vec<u8>> + '_ {
    let count = sorts.len();
    (0..count.pow(length as u32)).map(move |number| {
        let place = |at: usize| number / count.pow(at as u32) % count;
        (0..length).map(|at| sorts[place(at)]).collect()
    })
}

/// The byte by the paper's own sentence, from all texts of this length that have right form.
fn byte_by_all_endings(text: &[u8], starts: &BTreeSet<Vec<u8>>) -> u32 {
    let mut places = 1..=text.len();
    let place = places.find(|&kept| !starts.contains(&text[..kept]));
    place.expect("of wrong form") as u32
}

fn starts_of(fields: impl Iterator<Item = Vec<u8>>) -> BTreeSet<Vec<u8>> {
    let mut starts = BTreeSet::new();
    for field in fields {
        for kept in 1..=field.len() {
            starts.insert(field[..kept].to_vec());
        }
    }
    starts
}

/// Every text of one to six bytes over every sort: the endings tried against all there are.
#[test]
fn the_endings_tried_are_enough_in_short_fields() {
    for (read, form, name) in BOTH {
        for length in 1..=6 {
            let right = all_texts(SORTS, length).filter(|text| form(text));
            let starts = starts_of(right);
            let mut spoilt = 0;
            for text in all_texts(SORTS, length).filter(|text| !form(text)) {
                let byte = byte_by_all_endings(&text, &starts);
                let shown = text.escape_ascii();
                assert_eq!(read(&text), refused(byte), "{name} \"{shown}\"");
                spoilt += 1;
            }
            assert!(spoilt * 5 > SORTS.len().pow(length as u32));
        }
    }
}

/// The paper's sentence on reals, read as a recipe: every field of so many bytes, one spelling for
/// each way to lay out blanks, sign, digits, point, exponent and blanks.
fn reals_by_recipe(length: usize) -> Vec<Vec<u8>> {
    let mut exponents = vec![String::new()];
    for letter in ["D", "E"] {
        for sign in ["", "+", "-"] {
            exponents.extend(["7", "77"].map(|digits| format!("{letter}{sign}{digits}")));
        }
    }
    let mut fields = Vec::new();
    for sign in ["", "+", "-"] {
        for exponent in &exponents {
            for digits in 1..=length {
                // The point before each of them, behind all, or nowhere.
                for point in 0..=digits + 1 {
                    let mut mantissa = "7".repeat(digits);
                    if point <= digits {
                        mantissa.insert(point, '.');
                    }
                    let number = format!("{sign}{mantissa}{exponent}");
                    let room = length.checked_sub(number.len());
                    fields.extend(room.into_iter().flat_map(|room| padded(&number, room)));
                }
            }
        }
    }
    fields
}

/// With all this room before it, behind it, or shared.
fn padded(number: &str, room: usize) -> Vec<Vec<u8>> {
    let share = |left: usize| format!("{:left$}{number}{:right$}", "", "", right = room - left);
    (0..=room).map(|left| share(left).into_bytes()).collect()
}

/// The recipe gives what has right form, and nothing else: short fields gone through in full.
#[test]
fn the_recipe_is_the_form() {
    for length in 1..=5 {
        let recipe: BTreeSet<Vec<u8>> = reals_by_recipe(length).into_iter().collect();
        let form = all_texts(SORTS, length).filter(|text| has_real_form(text));
        assert!(form.eq(all_texts(SORTS, length).filter(|text| recipe.contains(text))));
        assert!(recipe.iter().all(|text| has_real_form(text)));
    }
}

/// Fields as long as records have them are too many to go through. All starts that the recipe
/// leaves possible are not; so every byte is looked up there, in texts that it gives with up to two
/// bytes of another sort.
#[test]
fn the_endings_tried_are_enough_in_long_fields() {
    let dice = &mut Dice::new(32);
    for length in [7, 12, 24] {
        let fields = reals_by_recipe(length);
        let starts = starts_of(fields.iter().cloned());
        for start in &starts {
            assert!(can_be_ended(start, length, has_real_form));
        }
        let mut bytes = BTreeSet::new();
        for turn in 0..40_000 {
            let mut text = dice.pick(&fields).clone();
            for _ in 0..turn % 2 + 1 {
                let place = dice.size(0, length - 1);
                text[place] = *dice.pick(SORTS);
            }
            if !has_real_form(&text) {
                let byte = byte_by_all_endings(&text, &starts);
                assert_eq!(real(&text), refused(byte), "\"{}\"", text.escape_ascii());
                bytes.insert(byte);
            }
        }
        assert_eq!(bytes.len(), length);
    }
}

/// Every start of a right field can be ended, in the spellings that the comparisons use too.
#[test]
fn starts_of_right_fields_can_be_ended() {
    let dice = &mut Dice::new(33);
    for turn in 0..30_000 {
        let (text, form): (_, Form) = match turn % 3 {
            0 => (spelling::integer(dice), has_integer_form),
            1 => (spelling::moderate_real(dice), has_real_form),
            _ => (spelling::wild_real(dice), has_real_form),
        };
        for kept in 0..=text.len() {
            assert!(can_be_ended(&text[..kept], text.len(), form));
        }
    }
}

/// 6.1: a field of another length that begins with the same bytes has the same byte, if that is not
/// its last.
#[test]
fn the_length_does_not_matter() {
    for (read, _, name) in BOTH {
        let longest = if name == "integer" { 6 } else { 24 };
        for text in all_texts(SORTS, 4) {
            let found = read(&text);
            for length in 5..=longest {
                for filler in [b' ', b'7', b'x'] {
                    let mut longer = text.clone();
                    longer.resize(length, filler);
                    let byte = read(&longer).byte;
                    match found.byte {
                        1..=3 => assert_eq!(byte, found.byte, "{name} {longer:?}"),
                        // Its last byte: wrong as such, or there was too little.
                        _ => assert!(byte == 0 || byte >= 4, "{name} {longer:?}"),
                    }
                }
            }
        }
    }
}

/// What byte of its sort it is makes no difference, in any text.
#[test]
fn bytes_of_one_sort_are_alike() {
    let dice = &mut Dice::new(34);
    let sorts: [&[u8]; 4] = [
        b"0123456789",
        b"+-",
        b"DE",
        b"x,/:OI!_abcdefgz\t\n\0\x1F\x7F\x80\xA0\xB0\xC4\xFF",
    ];
    for turn in 0..60_000 {
        let length = turn % 24 + 1;
        let text: Vec<u8> = (0..length).map(|_| *dice.pick(SORTS)).collect();
        let mut other = text.clone();
        for byte in &mut other {
            if let Some(sort) = sorts.iter().find(|sort| sort.contains(byte)) {
                *byte = *dice.pick(sort);
            }
        }
        assert_eq!(real(&text).byte, real(&other).byte);
        assert_eq!(integer(&text).byte, integer(&other).byte);
    }
}

/// A reader that goes wrong: the byte it names, from a field of wrong form and its right byte.
type Slip = (&'static str, fn(&[u8], usize) -> usize);

/// READINGS-02, request 6, "Slips", and readers that look for the fault from another side.
const SLIPS: [Slip; 9] = [
    ("counted from 0", |_, byte| byte - 1),
    ("always the first", |_, _| 1),
    ("always the last", |field, _| field.len()),
    ("the last non-blank of a blank field", |field, byte| {
        let blank = field.iter().all(|&byte| byte == b' ');
        if blank {
            0
        } else {
            byte
        }
    }),
    (
        "the last non-blank of one that ends too soon",
        |field, byte| {
            let last = field.iter().rposition(|&byte| byte != b' ');
            byte.min(last.map_or(1, |place| place + 1))
        },
    ),
    ("the blank behind the number", |field, byte| {
        let before = &field[..byte - 1];
        let number = before.iter().rposition(|&byte| byte != b' ');
        match before.iter().any(u8::is_ascii_digit) && before.ends_with(b" ") {
            true => number.map_or(byte, |place| place + 2),
            false => byte,
        }
    }),
    ("counted without the blanks before", |field, byte| {
        let blanks = field.iter().take_while(|&&byte| byte == b' ').count();
        (byte - blanks.min(byte - 1)).max(1)
    }),
    ("the last that is no byte of a number", |field, byte| {
        let strange = |byte: &u8| !b" 0123456789+-.DE".contains(byte);
        field
            .iter()
            .rposition(strange)
            .map_or(byte, |place| place + 1)
    }),
    (
        "one past the field where it ends too soon",
        |field, byte| {
            if byte == field.len() {
                byte + 1
            } else {
                byte
            }
        },
    ),
];

#[test]
fn each_slip_shows_in_the_texts_compared() {
    let mut seen = [[0_u32; SLIPS.len()]; 2];
    let mut dice = Dice::new(35);
    for family in FAMILIES {
        (family.make)(&mut dice, &mut |text| {
            for (times, (read, _, _)) in seen.iter_mut().zip(BOTH) {
                let byte = read(text).byte as usize;
                if byte > 0 {
                    for (times, (_, slip)) in times.iter_mut().zip(SLIPS) {
                        *times += u32::from(slip(text, byte) != byte);
                    }
                }
            }
        });
    }
    for (times, (_, _, reading)) in seen.iter().zip(BOTH) {
        for (times, (name, _)) in times.iter().zip(SLIPS) {
            // Behind an integer a blank is the byte itself.
            let none = reading == "integer" && name == "the blank behind the number";
            assert!(none || *times > 1_000, "{reading}, {name}: {times}");
        }
    }
}
