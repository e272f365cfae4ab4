//! Which faults a command is to have: most have none, some have one or several at once.

use crate::random::Random;

/// For each question, in how many of a hundred fields its fault is put.
#[derive(Clone, Copy, PartialEq, Eq, Debug, Default)]
pub struct Faults {
    /// Question 2: numbers ill spelled, the command cut short, an unknown kind.
    pub spelling: usize,
    /// Question 3: coordinates out of bounds.
    pub bounds: usize,
    /// Question 4: dead ids, ids of the wrong kind.
    pub ids: usize,
    /// Question 5: places, flags, cycles, corners and moved lists that do not exist.
    pub places: usize,
    /// Question 6: cells are picked without asking the rule.
    pub rules: usize,
}

impl Faults {
    pub fn none() -> Faults {
        Faults::default()
    }

    pub fn any(&self) -> bool {
        *self != Faults::none()
    }

    /// No fault in `percent` of a hundred commands, else one or more of the five.
    pub fn draw(random: &mut Random, percent: usize) -> Faults {
        let mut faults = Faults::none();
        if random.chance(percent) {
            return faults;
        }
        let several = random.one_in(3);
        // Few kinds have places, so these are drawn more often.
        let only = [0, 1, 2, 3, 3, 3, 4][random.below(7)];
        let mut level = |which| {
            let wanted = which == only || (several && random.chance(40));
            if wanted {
                [15, 40, 80][random.below(3)]
            } else {
                0
            }
        };
        faults.spelling = level(0) / 4;
        faults.bounds = level(1);
        faults.ids = level(2);
        faults.places = level(3);
        faults.rules = if level(4) > 0 { 100 } else { 0 };
        faults
    }
}
