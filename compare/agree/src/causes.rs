//! What the number of a refusal doesn't tell: which of several things was wrong.

#[derive(Clone, Copy, PartialEq, Eq, Debug)]
pub enum Cause {
    Figure,
    State,
    Twice,
    NoRoom,
    NoPayload,
    SilentIndex,
    SilentMessage,
}

pub const CAUSES: [(Cause, &str); 7] = [
    (Cause::Figure, "1 for a figure"),
    (Cause::State, "for an unknown state"),
    (Cause::Twice, "for a number twice"),
    (Cause::NoRoom, "10 for K"),
    (Cause::NoPayload, "for the message"),
    (Cause::SilentIndex, "19 for the I-blocks"),
    (Cause::SilentMessage, "19 for the message"),
];

impl Cause {
    /// Of a job call that was refused with 1 or 10 under this table: `room` is whether its figures have room for a job, or what they are refused with.
    pub fn of(number: u8, table: &[u8], room: impl Fn() -> Result<bool, u8>) -> Option<Cause> {
        let known = |slot: &[u8]| slot[0] <= 5;
        match number {
            1 if room() == Err(1) => Some(Cause::Figure),
            1 if table.chunks_exact(5).all(known) => Some(Cause::Twice),
            1 => Some(Cause::State),
            10 if room() == Ok(true) => Some(Cause::NoPayload),
            10 => Some(Cause::NoRoom),
            _ => None,
        }
    }
}
