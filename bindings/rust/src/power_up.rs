use crate::refusal::Inner;
use crate::Refusal;

/// What a power-up came to.
#[derive(Clone, Copy, Debug, PartialEq, Eq)]
pub enum Outcome {
    /// Nothing may run: 1, 10, 11, or with the bad image's own refusal 12 or 13; where erases are counted also 19 and 20.
    Refused(Refusal),
    /// An operation is left to do, and the budget is used up.
    Cut,
    /// BOOT runs.
    Run,
    /// The update stands in BOOT and runs, and waits for [`confirm`](crate::Flash::confirm).
    RunOnTest,
    /// The image before the update stands in BOOT again and runs.
    RunFallenBack,
}

/// A power-up's answer.
#[derive(Clone, Copy, Debug, PartialEq, Eq)]
pub struct PowerUp {
    /// What it came to.
    pub outcome: Outcome,
    /// The erases, copies and writes that it did.
    pub operations: u64,
    /// Why an update was turned down, where one was: what the image check refused, or 15.
    pub turned_down: Option<Refusal>,
}

impl PowerUp {
    /// What the call says that answered this number and filled this row.
    pub(crate) fn of(answer: u32, row: [u64; 6]) -> PowerUp {
        let [outcome, operations, inner, inner_place, reason, reason_place] = row;
        let inner = (inner != 0).then_some(Inner { number: inner as u32, place: inner_place });
        let outcome = match (answer, outcome) {
            (0, 1) => Outcome::Cut,
            (0, 2) => Outcome::Run,
            (0, 3) => Outcome::RunOnTest,
            (0, _) => Outcome::RunFallenBack,
            (number, _) => Outcome::Refused(Refusal { number, place: 0, inner }),
        };
        let turned_down = (reason != 0).then_some(Refusal::new(reason as u32, reason_place));
        PowerUp { outcome, operations, turned_down }
    }
}
