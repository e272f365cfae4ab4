//! Chooses the next command for a drawing: its kind by theme and phase, its faults by chance. Renumberings come in between.

use plain::{Drawing, Sizes, CEILINGS};

use crate::faults::Faults;
use crate::kinds::{self, Fill, Style};
use crate::pen::Pen;
use crate::random::Random;

/// What an episode grows towards.
#[derive(Clone, Copy, PartialEq, Eq, Debug)]
pub enum Theme {
    Mixed,
    Cells,
    Cycles,
    Steps,
    Bends,
}

pub const THEMES: [Theme; 5] = [Theme::Mixed, Theme::Cells, Theme::Cycles, Theme::Steps, Theme::Bends];

/// One command of so many is a renumbering: in some episodes ids stay low, in others they rise.
pub const RENEWALS: [usize; 3] = [15, 60, 600];

/// So many commands after a renumbering some are still written for the drawing before it.
const MEMORY: usize = 6;

/// Weights of the kinds 01 to 0E; 0F has a chance of its own.
type Weights = [usize; 14];

/// Creation and cuts prevail.
const GROWING: Weights = [10, 12, 5, 10, 3, 1, 2, 3, 6, 9, 5, 10, 6, 4];
/// All kinds in turn.
const STEADY: Weights = [7, 9, 4, 8, 5, 4, 4, 7, 8, 8, 5, 9, 6, 12];
/// Deletes, glues and uncuts prevail.
const SHRINKING: Weights = [2, 2, 1, 2, 4, 10, 9, 14, 2, 2, 1, 2, 1, 26];

#[derive(Clone, Copy, PartialEq, Eq, Debug)]
enum Phase {
    Growing,
    Steady,
    Shrinking,
}

pub struct Generator {
    theme: Theme,
    phase: Phase,
    /// Commands left in the phase.
    left: usize,
    /// How full the drawing is to become before growth ends, in a hundred.
    goal: i64,
    /// One of so many commands is a renumbering.
    renewal: usize,
    /// The drawing before the last renumbering.
    before: Drawing,
    /// How many commands were written since it.
    since: usize,
}

impl Generator {
    pub fn new(theme: Theme, renewal: usize) -> Generator {
        let before = Drawing::empty();
        Generator { theme, phase: Phase::Growing, left: 0, goal: 40, renewal, before, since: MEMORY }
    }

    /// The bytes of the next command.
    pub fn command(&mut self, random: &mut Random, drawing: &Drawing) -> Vec<u8> {
        let sizes = plain::sound(drawing).unwrap_or_default();
        self.turn(random, sizes);
        let faults = Faults::draw(random, 78);
        if self.renews(random, drawing) {
            (self.before, self.since) = (drawing.clone(), 0);
            let mut pen = Pen::new(random, faults, drawing);
            pen.kind(0x0F);
            return pen.finish();
        }
        let style = self.style(random, sizes);
        self.since += 1;
        let old = self.since <= MEMORY && random.one_in(3);
        self.other(random, faults, style, if old { &self.before } else { drawing })
    }

    /// Whether a renumbering is next: now and then, often where one was just now or where there is no cell.
    fn renews(&self, random: &mut Random, drawing: &Drawing) -> bool {
        let often = self.since == 0 || drawing.cells.is_empty();
        random.one_in(if often { 4 } else { self.renewal })
    }

    /// A command of the kinds 01 to 0E for the cells of a drawing.
    fn other(&self, random: &mut Random, faults: Faults, style: Style, drawing: &Drawing) -> Vec<u8> {
        if random.one_in(400) {
            let mut pen = Pen::new(random, faults, drawing);
            if kinds::giant(&mut pen, drawing).is_some() {
                return pen.finish();
            }
        }
        let weights = self.weights();
        for _ in 0..6 {
            let kind = 1 + random.weighted(&weights) as u8;
            let mut pen = Pen::new(random, faults, drawing);
            if kinds::write(kind, &mut pen, drawing, style).is_some() {
                return pen.finish();
            }
        }
        let mut pen = Pen::new(random, faults, drawing);
        pen.kind(0x01);
        pen.position();
        pen.finish()
    }

    /// Goes over to another phase when the time is up or the drawing is full enough.
    fn turn(&mut self, random: &mut Random, sizes: Sizes) {
        let cells_full = sizes.cells >= CEILINGS.cells - 4 && self.theme != Theme::Cells;
        if self.left > 0 && !(self.phase == Phase::Growing && cells_full) {
            self.left -= 1;
            return;
        }
        self.phase = match self.phase {
            Phase::Growing if cells_full => Phase::Shrinking,
            Phase::Growing if self.fullness(sizes) >= self.goal => Phase::Steady,
            Phase::Growing => Phase::Growing,
            Phase::Steady => Phase::Shrinking,
            Phase::Shrinking => {
                self.goal = [30, 50, 70, 90, 97, 100][random.below(6)];
                Phase::Growing
            }
        };
        self.left = match self.phase {
            Phase::Growing => 10,
            Phase::Steady => random.between(20, 120),
            Phase::Shrinking => random.between(10, 80),
        };
    }

    /// How much of the theme's ceiling is reached, in a hundred.
    fn fullness(&self, sizes: Sizes) -> i64 {
        match self.theme {
            Theme::Mixed | Theme::Cells => sizes.cells * 100 / CEILINGS.cells,
            Theme::Cycles => sizes.cycles * 100 / CEILINGS.cycles,
            Theme::Steps => sizes.steps * 100 / CEILINGS.steps,
            Theme::Bends => sizes.bends * 100 / CEILINGS.bends,
        }
    }

    fn weights(&self) -> Weights {
        let mut weights = match self.phase {
            Phase::Growing => GROWING,
            Phase::Steady => STEADY,
            Phase::Shrinking => SHRINKING,
        };
        if self.phase == Phase::Growing {
            match self.theme {
                Theme::Mixed | Theme::Bends => {}
                Theme::Cells => weights[0] += 20,
                Theme::Cycles => weights[3] += 20,
                Theme::Steps => weights[3] += 30,
            }
        }
        weights
    }

    /// How long lists are; in themes seldom so long that a ceiling is just reached, or just missed.
    fn style(&self, random: &mut Random, sizes: Sizes) -> Style {
        let seldom = random.one_in(12);
        let mut style = match self.theme {
            Theme::Mixed | Theme::Cells => Style { bends: 4, cycles: 4, walk: 12, fill: None },
            Theme::Cycles => Style { bends: 2, cycles: if seldom { 60 } else { 12 }, walk: 3, fill: None },
            Theme::Steps => Style { bends: 2, cycles: 3, walk: if seldom { 500 } else { 60 }, fill: None },
            Theme::Bends => Style { bends: if seldom { 600 } else { 60 }, cycles: 3, walk: 6, fill: None },
        };
        if self.phase != Phase::Shrinking && random.one_in(40) {
            let over = i64::from(random.one_in(4));
            style.fill = match self.theme {
                Theme::Mixed | Theme::Cells => None,
                Theme::Cycles => Some(Fill::Cycles((CEILINGS.cycles - sizes.cycles + over) as usize)),
                Theme::Steps => Some(Fill::Steps((CEILINGS.steps - sizes.steps + over) as usize)),
                Theme::Bends => Some(Fill::Bends((CEILINGS.bends - sizes.bends + over) as usize)),
            };
        }
        style
    }
}
