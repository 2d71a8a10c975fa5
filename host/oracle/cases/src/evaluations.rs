//! One evaluation and its expected answer: a case of 173 bytes.

use crate::floats::{out_of_size, style};
use crate::hazard_damage::damage;
use crate::hazards::{evaluation_time, evaluation_w, hazard};
use crate::random::Random;
use reference::evaluation::{Evaluation, INVERT_CUMULATIVE_HAZARD, evaluate};
use reference::hazard::Hazard;

pub const CASE_BYTES: usize = 173;

#[derive(Clone, Copy, Debug)]
pub struct EvaluationCase {
    pub operation: u8,
    pub hazard: Hazard,
    /// The time, or the start of the inversion.
    pub t: f64,
    /// Used by the inversion, +0.0 otherwise.
    pub w: f64,
}

impl EvaluationCase {
    /// Four in five are accepted.
    pub fn random(random: &mut Random) -> Self {
        let mut case = Self::accepted(random);
        if random.chance(20) {
            case.damage(random);
            if random.chance(25) {
                case.damage(random);
            }
        }
        case
    }

    fn accepted(random: &mut Random) -> Self {
        let style = style(random);
        let operation = random.below(3) as u8;
        let hazard = hazard(random, style);
        let t = evaluation_time(random, &hazard, style);
        let w = if operation == INVERT_CUMULATIVE_HAZARD {
            evaluation_w(random, &hazard, t, style)
        } else {
            0.0
        };
        Self {
            operation,
            hazard,
            t,
            w,
        }
    }

    fn damage(&mut self, random: &mut Random) {
        match random.below(5) {
            0 => self.t = out_of_size(random),
            1 if self.operation == INVERT_CUMULATIVE_HAZARD => self.w = out_of_size(random),
            _ => damage(random, &mut self.hazard),
        }
    }

    pub fn expected(&self) -> Evaluation {
        let answer = evaluate(self.operation, &self.hazard, self.t, self.w);
        assert!(
            !answer.value.is_nan(),
            "a value that is no number: {self:?}"
        );
        answer
    }

    pub fn encode(&self, out: &mut Vec<u8>) {
        let expected = self.expected();
        out.push(self.operation);
        self.hazard.encode(out);
        out.extend(self.t.to_le_bytes());
        out.extend(self.w.to_le_bytes());
        out.push(expected.number);
        out.push(u8::from(expected.found));
        out.extend(expected.value.to_le_bytes());
        out.extend(expected.piece.to_le_bytes());
    }
}
