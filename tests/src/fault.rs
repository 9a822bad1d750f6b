//! What installers' code did instead: document 01, the section of that name. Each is a change to one step of the model,
//! so that a search for two holders can show that it would have found it.

#[derive(Clone, Copy, Debug, Default, PartialEq, Eq)]
pub enum Fault {
    #[default]
    None,
    /// A keeper answers a repeated REQUEST of its owner.
    AnswersOwner,
    /// A kiosk keeps the answers after a round of yields.
    KeepsAnswers,
    /// A kiosk counts an answer that bears an old ticket of its own.
    CountsOldTicket,
    /// m is more than half of n: a setting, so no step changes.
    MoreThanHalf,
    /// A message that was taken can be taken again, without a restart.
    ComesTwice,
}
