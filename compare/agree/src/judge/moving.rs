//! The moves between the Larsson code and Construction A.

use burgzemi::Ranked;

use super::{all, Answer, Judge};
use crate::lent::Lent;
use crate::ways::Way;

impl Judge {
    /// The moved strip comes as `out`. The strip and the table are lent as written buffers are, and must be left as they were.
    pub fn move_job(
        &mut self,
        way: Way,
        f: Ranked,
        table: &[u8],
        strip: &[u8],
        moved: usize,
    ) -> Answer {
        let inputs = || format!("{f:?} table, strip {} moved {moved}", all(&[table, strip]));
        let lent = [strip, table].concat();
        let answer = self.both(
            way.op().into(),
            Lent::new(moved),
            Lent::holding(&lent),
            &inputs,
            &|side, out, also| {
                let (strip, table) = also.split_at(strip.len());
                way.call(side)(f, table, strip, out)
            },
        );
        let kept = answer.also == lent;
        self.expect(way.op(), kept, &inputs, "a strip or a table was touched");
        self.tally.count_move(way, f, table, answer.number);
        answer
    }
}
