//! The very byte (02, request 6): the first byte of a field with which no field of its length can
//! have right form any more (READINGS-02, 6.1). It is found by trying: the bytes up to some place
//! are kept, endings are put behind them, and what comes out is asked for its form. How numbers are
//! spelled only the form knows that is asked. That these endings are enough, as good as all there
//! are, is what tests/very_byte.rs is for.

use std::sync::LazyLock;

/// Says whether a field has right form.
pub type Form = fn(&[u8]) -> bool;

/// A byte of every sort that a number is spelled with. Most starts can go on with the first two,
/// so they come first.
const SORTS: &[u8] = b"0 .+-DE";
/// What fills the field up to its end.
const FILLERS: &[u8] = b"0 ";

/// What endings begin with: nothing, one byte of any sort, or two.
static BEGINNINGS: LazyLock<Vec<Vec<u8>>> = LazyLock::new(|| {
    let mut all = vec![Vec::new()];
    all.extend(SORTS.iter().map(|&only| vec![only]));
    for &first in SORTS {
        all.extend(SORTS.iter().map(|&second| vec![first, second]));
    }
    all
});

/// Counted from 1. The field has wrong form; so its last byte is the one if none before it is, for
/// there is no ending left to put behind it: a field that ends too soon needs no rule of its own.
pub fn very_byte(field: &[u8], form: Form) -> u32 {
    let mut places = 1..=field.len();
    let place = places.find(|&kept| !can_be_ended(&field[..kept], field.len(), form));
    place.expect("the field has wrong form") as u32
}

/// Whether some field of so many bytes that starts like this has right form.
pub fn can_be_ended(start: &[u8], length: usize, form: Form) -> bool {
    let mut field = start.to_vec();
    field.resize(length, b' ');
    let room = length - start.len();
    for beginning in BEGINNINGS.iter().filter(|begun| begun.len() <= room) {
        for &filler in FILLERS {
            let (begun, filled) = field[start.len()..].split_at_mut(beginning.len());
            begun.copy_from_slice(beginning);
            filled.fill(filler);
            if form(&field) {
                return true;
            }
        }
    }
    false
}
