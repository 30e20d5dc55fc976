//! That the texts are many enough and varied enough, whatever the seed.

use second::dice::Dice;
use second::number::{integer, real, Reading};
use second::texts::shown::Shown;
use second::texts::{spelling, FAMILIES};

/// What one reading makes of the texts: how often each kind, and what of the very byte is shown.
struct Read {
    kinds: [u64; 9],
    shown: Shown,
}

impl Read {
    fn see(&mut self, text: &[u8], found: Reading) {
        self.kinds[found.kind as usize] += 1;
        self.shown.see(text, found);
        // READINGS-02, 6.3: one of the field's own bytes for kind 6, none for any other.
        let own = 1..=text.len() as u32;
        assert_eq!(own.contains(&found.byte), found.kind == 6, "{text:?}");
        assert!(found.byte == 0 || found.kind == 6, "{text:?}");
    }
}

struct Survey {
    texts: u64,
    integers: Read,
    reals: Read,
    lengths: [bool; 31],
}

fn survey(seed: u64) -> Survey {
    let mut dice = Dice::new(seed);
    let read = |shown| Read {
        kinds: [0; 9],
        shown,
    };
    let mut met = Survey {
        texts: 0,
        integers: read(Shown::of_integers()),
        reals: read(Shown::of_reals()),
        lengths: [false; 31],
    };
    for family in FAMILIES {
        (family.make)(&mut dice, &mut |text| {
            met.texts += 1;
            met.integers.see(text, integer(text));
            met.reals.see(text, real(text));
            if text.len() < met.lengths.len() {
                met.lengths[text.len()] = true;
            }
        });
    }
    met
}

#[test]
fn every_seed_gives_enough_of_everything() {
    std::thread::scope(|scope| {
        for seed in [0, u64::MAX] {
            scope.spawn(move || demand_enough(survey(seed)));
        }
    });
}

fn demand_enough(met: Survey) {
    assert!(met.texts >= 1_500_000);
    for (read, kinds) in [
        (met.integers, &[0, 1, 6][..]),
        (met.reals, &[0, 1, 6, 7, 8]),
    ] {
        assert!(read.kinds[0] * 10 >= met.texts);
        assert!(kinds.iter().all(|&kind| read.kinds[kind] > 10_000));
        let seen = read.kinds.iter().filter(|&&times| times > 0);
        assert_eq!(seen.count(), kinds.len());
        assert_eq!(read.shown.never_seen(), Vec::<String>::new());
    }
    assert!(met.lengths.iter().all(|&met| met));
}

#[test]
fn spellings_called_valid_have_valid_form() {
    let mut dice = Dice::new(3);
    for _ in 0..100_000 {
        assert_eq!(integer(&spelling::integer(&mut dice)).kind, 0);
        assert!([0, 7, 8].contains(&real(&spelling::moderate_real(&mut dice)).kind));
        assert!([0, 7, 8].contains(&real(&spelling::wild_real(&mut dice)).kind));
    }
}
