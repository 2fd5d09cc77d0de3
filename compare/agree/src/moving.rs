//! Jobs moved between the Larsson code and Construction A: either payload the longer, there and back, every state of a job, spoilt strips, and refused calls.

use burgzemi::Ranked;
use second::job::payload_len;
use second::Figures;

use crate::calls::{bad_table, start, table, TABLE};
use crate::jobs::{known_number, off, written};
use crate::judge::{hex, Judge};
use crate::make::{damage, found, numbers, odd_message, placement, start_bytes, wrong_len};
use crate::rng::Rng;
use crate::sides::Numbers;
use crate::silent::Silent;
use crate::spoilt;
use crate::ways::{Way, WAYS};
use crate::words::Strip;

pub fn run(judge: &mut Judge, rng: &mut Rng) {
    limits(judge);
    papers_strips(judge);
    for f in FIGURES {
        WAYS.iter().for_each(|&way| every_state(judge, way, f));
        every_surplus(judge, f);
        (0..20).for_each(|_| round(judge, rng, f));
    }
}

/// What the lengths alone tell of figures: 3 where both codes take them and both payloads have room.
fn limits(judge: &mut Judge) {
    for (f, number) in [
        ((11, 256, 2, 1), 3),
        ((16, 256, 3, 1), 3),
        ((8, 256, 1, 1), 3),
        // Construction A has 4 bytes, the Larsson code, both.
        ((10, 256, 2, 1), 10),
        ((15, 256, 3, 1), 10),
        ((7, 256, 1, 1), 10),
        ((3, 4, 1, 1), 10),
        // The Larsson code alone takes them, Construction A, neither.
        ((3, 2, 3, 1), 2),
        ((64, 2, 1, 16), 2),
        ((6, 5, 2, 1), 2),
        ((3, 2, 1, 1), 2),
        ((4096, 256, 6, 333), 2),
        ((4096, 256, 6, 112), 3),
        ((4097, 256, 6, 333), 1),
        ((2, 256, 1, 1), 1),
        ((11, 257, 2, 1), 1),
        ((11, 256, 9, 1), 1),
        ((11, 256, 2, 0), 1),
    ] {
        for way in WAYS {
            let answer = judge.move_job(way, f, &[], &[], 0).number;
            let inputs = || format!("{way:?} {f:?} is {number}");
            let what = "not what the documents say";
            judge.expect(way.op(), answer == number, &inputs, what);
        }
    }
}

/// Job 7 under a table that has it open: a payload as long, and one of 6 bytes for one of 5. Starts 2 and 5 have rank 12.
fn papers_strips(judge: &mut Judge) {
    let table = holding(17, 1, 7);
    let old = b"\x06\0\0\0\x07\x41\0\0\x42\x43\x44\x45\x46\x47\x06";
    let new = b"\0\0\0\0\x07\x41\0\0\x42\x43\x07\x44\x45\x46\x47";
    let old_short = b"\x0C\0\0\0\x0C\0\0\x0C\x07\x41\0";
    let new_short = b"\0\0\0\0\0\0\0\x01\x07\x0D\x41";
    for (f, old, new) in [
        ((15, 256, 1, 2), &old[..], &new[..]),
        ((11, 256, 2, 1), old_short, new_short),
    ] {
        for (way, from, to) in [(Way::ToA, old, new), (Way::ToLarsson, new, old)] {
            let moved = judge.move_job(way, f, &table, from, from.len());
            let right = moved.number == 0 && moved.out == to;
            let inputs = || format!("{way:?} {f:?}");
            judge.expect(way.op(), right, &inputs, "not what the documents say");
        }
    }
}

/// Either payload is the longer, by one byte and by several, or both are as long; with small alphabets symbols are left over, or a byte's spell 256 and more.
const FIGURES: [Ranked; 14] = [
    (11, 256, 2, 1),
    (16, 256, 3, 1),
    (8, 256, 1, 1),
    (21, 256, 4, 1),
    (85, 256, 8, 1),
    (47, 255, 6, 1),
    (21, 16, 1, 2),
    (40, 17, 1, 2),
    (120, 3, 1, 9),
    (400, 2, 2, 12),
    (256, 15, 8, 1),
    (400, 16, 8, 3),
    (999, 256, 8, 15),
    (4096, 256, 6, 112),
];

/// A table with one number alone.
fn holding(slot: usize, state: u8, number: u32) -> Vec<u8> {
    let mut table = vec![0; TABLE];
    table[5 * slot] = state;
    table[5 * slot + 1..5 * slot + 5].copy_from_slice(&number.to_be_bytes());
    table
}

/// What a table that has the state of a number says of its move: 22 goes before 17, and both behind what the reader says.
fn wanted(state: u8, number: u32, surplus: bool) -> u8 {
    match state {
        1 if surplus => 22,
        1 if number == 0 => 17,
        1 => 0,
        4 => 23,
        2 | 3 | 5 => 12,
        _ => 14,
    }
}

/// Jobs 7 and 0 in each state, with no byte of the text, and with the last one that has no room or some.
fn every_state(judge: &mut Judge, way: Way, f: Ranked) {
    let Some((from, to)) = way.figures(f) else {
        return;
    };
    let (len, room) = (payload_len(&from), payload_len(&to));
    let starts: Vec<u16> = (0..from.m).map(|i| (i * from.b) as u16).collect();
    for (number, last) in [(7, 0), (7, 1), (0, 0), (0, 1)] {
        let mut payload = vec![0; len];
        (payload[3], payload[len - 1]) = (number as u8, last);
        let strip = written(judge, from, starts.clone(), &payload);
        for (slot, state) in [0, 31, 63]
            .iter()
            .flat_map(|&slot| (0..=5).map(move |state| (slot, state)))
        {
            let table = holding(slot, state, number);
            let answer = judge.move_job(way, f, &table, &strip.word, to.n).number;
            let right = answer == wanted(state, number, last != 0 && len > room);
            let inputs = || format!("{way:?} {f:?} number {number}, {state} in slot {slot}");
            let what = "not what the table says";
            judge.expect(way.op(), right, &inputs, what);
        }
    }
}

/// A payload with one byte that isn't 0, at every place behind the number: 22 where it has no room.
fn every_surplus(judge: &mut Judge, f: Ranked) {
    for (way, (from, to)) in WAYS.iter().filter_map(|&way| Some((way, way.figures(f)?))) {
        let (len, room) = (payload_len(&from), payload_len(&to));
        let starts: Vec<u16> = (0..from.m).map(|i| (i * from.b) as u16).collect();
        let table = holding(40, 1, 7);
        for at in (4..len).skip(room.saturating_sub(20).min(len - 5)) {
            let mut payload = vec![0; len];
            (payload[3], payload[at]) = (7, 1);
            let strip = written(judge, from, starts.clone(), &payload);
            let answer = judge.move_job(way, f, &table, &strip.word, to.n).number;
            let right = answer == if at < room { 0 } else { 22 };
            let inputs = || format!("{way:?} {f:?} byte {at}");
            let what = "22 is for surplus bytes";
            judge.expect(way.op(), right, &inputs, what);
        }
    }
}

/// One round for figures that both codes take, with room for a job.
pub fn round(judge: &mut Judge, rng: &mut Rng, f: Ranked) {
    for way in WAYS {
        let Some((from, to)) = way.figures(f) else {
            return;
        };
        let route = Route { way, f, from, to };
        there_and_back(judge, rng, &route);
        zero(judge, rng, &route);
        (0..2).for_each(|_| spoilt(judge, rng, &route));
        silent(judge, rng, &route);
        oddly_spelled(judge, rng, &route);
        refused(judge, rng, &route);
    }
}

/// A direction, and the figures of a move: as they are given, of the strip that is read, and of the one that is written.
struct Route {
    way: Way,
    f: Ranked,
    from: Figures,
    to: Figures,
}

impl Route {
    /// A payload of this job, whose surplus bytes are mostly 0.
    fn payload(&self, rng: &mut Rng, number: u32) -> Vec<u8> {
        let (len, room) = (payload_len(&self.from), payload_len(&self.to));
        let mut payload = rng.bytes(len);
        payload[..4].copy_from_slice(&number.to_be_bytes());
        payload[room.min(len)..].fill(0);
        if room < len && rng.once_in(4) {
            let any = room + rng.index(len - room);
            let at = rng.pick(&[room, len - 1, any]);
            payload[at] = rng.between(1, 255) as u8;
        }
        payload
    }

    fn surplus(&self, payload: &[u8]) -> bool {
        let room = payload_len(&self.to);
        payload.iter().skip(room).any(|&byte| byte != 0)
    }

    /// The strip of a job that is mostly one of the table's, and its payload.
    fn job(&self, judge: &mut Judge, rng: &mut Rng, table: &[u8]) -> (Strip, Vec<u8>) {
        let number = known_number(rng, table);
        let payload = self.payload(rng, number);
        let starts = placement(rng, &self.from);
        (written(judge, self.from, starts, &payload), payload)
    }
}

/// A strip with damage in its runs is moved, damaged in between, and moved back.
fn there_and_back(judge: &mut Judge, rng: &mut Rng, route: &Route) {
    let Route { way, f, from, to } = route;
    let table = table(rng);
    let (strip, mut payload) = route.job(judge, rng, &table);
    let mut found = strip.word.clone();
    damage(rng, from, &strip.starts, &mut found);
    let moved = judge.move_job(*way, *f, &table, &found, to.n);
    if moved.number != 0 {
        return;
    }
    payload.resize(payload_len(to), 0);
    let other = written(judge, *to, strip.starts.clone(), &payload);
    let inputs = || format!("{way:?} {f:?} {:?} strip {}", strip.starts, hex(&found));
    let same = moved.out == other.word;
    judge.expect(way.op(), same, &inputs, "not the same job");
    let mut between = moved.out;
    damage(rng, to, &strip.starts, &mut between);
    let back = judge.move_job(way.back(), *f, &table, &between, from.n);
    let same = back.number == 0 && back.out == strip.word;
    judge.expect(way.back().op(), same, &inputs, "not the strip before");
    let read = judge.decode(numbers(from), &back.out, from.k, 2 * from.m);
    let same = read.out == strip.message && read.also == start_bytes(&strip.starts);
    judge.expect(way.back().op(), same, &inputs, "not the message before");
}

/// A strip of number 0 under a table that lacks it or holds it alone.
fn zero(judge: &mut Judge, rng: &mut Rng, route: &Route) {
    let Route { way, f, from, to } = route;
    let table = start(rng);
    let payload = route.payload(rng, 0);
    let strip = written(judge, *from, placement(rng, from), &payload);
    let mut found = strip.word.clone();
    damage(rng, from, &strip.starts, &mut found);
    let answer = judge.move_job(*way, *f, &table, &found, to.n).number;
    let state = table.chunks_exact(5).map(|slot| slot[0]).max().unwrap_or(0);
    let right = answer == wanted(state, 0, route.surplus(&payload));
    let inputs = || format!("{way:?} {f:?} {:?} number 0, {state}", strip.starts);
    let what = "not what the table says of 0";
    judge.expect(way.op(), right, &inputs, what);
}

/// A strip spoilt outside its runs: what the word reader refuses, the move refuses likewise.
fn spoilt(judge: &mut Judge, rng: &mut Rng, route: &Route) {
    let Route { way, f, from, to } = route;
    let table = table(rng);
    let (strip, _) = route.job(judge, rng, &table);
    let word = spoilt::spoilt(rng, &strip);
    let read = judge.decode(numbers(from), &word, from.k, 2 * from.m);
    let answer = judge.move_job(*way, *f, &table, &word, to.n).number;
    let right = match read.number {
        0 => [0, 10, 12, 14, 17, 22, 23].contains(&answer),
        refusal => answer == refusal,
    };
    let inputs = || format!("{way:?} {f:?} strip {}", hex(&word));
    judge.expect(way.op(), right, &inputs, "not what the word reader says");
}

/// A silent cell outside the runs.
fn silent(judge: &mut Judge, rng: &mut Rng, route: &Route) {
    let Route { way, f, to, .. } = route;
    let table = table(rng);
    let (strip, _) = route.job(judge, rng, &table);
    if let Some(silent) = Silent::new(rng, &strip) {
        let moved = judge.move_job(*way, *f, &table, &silent.word, to.n);
        silent.judge(judge, way.op().into(), moved.number);
    }
}

/// A message that just spells a payload, or just doesn't.
fn oddly_spelled(judge: &mut Judge, rng: &mut Rng, route: &Route) {
    let Route { way, f, from, to } = route;
    let table = table(rng);
    let number = known_number(rng, &table);
    let payload = route.payload(rng, number);
    let message = odd_message(rng, from, &payload);
    let starts = start_bytes(&placement(rng, from));
    let word = judge.encode(numbers(from), &starts, &message, from.n);
    judge.move_job(*way, *f, &table, &word.out, to.n);
}

/// One thing wrong with a move, and sometimes several.
fn refused(judge: &mut Judge, rng: &mut Rng, route: &Route) {
    let Route { way, f, from, to } = route;
    let mut table = table(rng);
    let (strip, _) = route.job(judge, rng, &table);
    let mut word = strip.word;
    let (mut moved, mut figures) = (to.n, Numbers::Ranked(*f));
    for _ in 0..rng.pick(&[1, 1, 2, 3]) {
        match rng.below(6) {
            0 => word.resize(wrong_len(rng, word.len()), 0),
            1 => moved = wrong_len(rng, moved),
            2 => table = bad_table(rng),
            3 => word = found(rng, from.q, word.len()),
            4 if !word.is_empty() => {
                let at = rng.index(word.len());
                word[at] = rng.byte();
            }
            _ => figures = off(rng, figures),
        }
    }
    judge.move_job(*way, figures.ranked(), &table, &word, moved);
}
