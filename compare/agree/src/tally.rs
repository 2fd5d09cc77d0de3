//! What was seen so far: every answer of each kind of call, and the accepted words.

use burgzemi::Ranked;
use second::blocks::Layout;
use second::figures::{Code, MAX_RUNS};
use second::job::has_room;
use second::moving::Layouts;
use second::Figures;

use crate::causes::{Cause, CAUSES};
use crate::kinds::{Kind, Op, KINDS};
use crate::larsson::most_votes;
use crate::sides::Numbers;
use crate::ways::{Way, WAYS};

pub struct Tally {
    /// Answers by kind of call.
    seen: [[u64; 256]; KINDS],
    /// Accepted words, by m and by how many parts have no block that looks F.
    accepted: [[u64; 3]; MAX_RUNS + 1],
    /// The same of Construction B.
    accepted_long: [u64; 3],
    /// Accepted words of the Larsson code, by m, with one placement alone, and by whether m + 1 sub-blocks or more hold the value.
    accepted_larsson: [[u64; 3]; MAX_RUNS + 1],
    /// Words with altered message cells: with none, one, several, or all of several.
    slips: [u64; 4],
    /// Refused calls, by kind and by what their number alone doesn't tell.
    causes: [[u64; CAUSES.len()]; KINDS],
    /// Served moves, by direction and by whether the payload is moved to a shorter one, one as long, or a longer one.
    moves: [[u64; 3]; WAYS.len()],
    /// Jobs written by the Larsson code, under figures that Construction A takes too, or doesn't.
    larsson_jobs: [u64; 2],
}

impl Default for Tally {
    fn default() -> Tally {
        Tally {
            seen: [[0; 256]; KINDS],
            accepted: Default::default(),
            accepted_long: Default::default(),
            accepted_larsson: Default::default(),
            slips: Default::default(),
            causes: [[0; CAUSES.len()]; KINDS],
            moves: Default::default(),
            larsson_jobs: Default::default(),
        }
    }
}

impl Tally {
    pub fn count(&mut self, kind: Kind, number: u8) {
        self.seen[kind.index()][number as usize] += 1;
    }

    pub fn count_accepted(&mut self, f: Numbers, word: &[u8]) {
        let Ok(f) = Figures::try_from(f) else { return };
        match f.code {
            Code::ConstructionA => self.accepted[f.m][parts_without_fixed(&f, word)] += 1,
            Code::ConstructionB => self.accepted_long[parts_without_fixed(&f, word)] += 1,
            Code::Larsson => {
                let kind = match most_votes(&f, word) {
                    _ if f.t == 1 => 0,
                    votes if votes == f.m + 1 => 1,
                    _ => 2,
                };
                self.accepted_larsson[f.m][kind] += 1;
            }
        }
    }

    pub fn count_slips(&mut self, slips: usize, symbols: usize) {
        let kind = match slips {
            0 | 1 => slips,
            _ if slips < symbols => 2,
            _ => 3,
        };
        self.slips[kind] += 1;
    }

    pub fn count_cause(&mut self, kind: Kind, cause: Cause) {
        self.causes[kind.index()][cause as usize] += 1;
    }

    /// A job call under these figures and this table, and its answer.
    pub fn count_job(&mut self, kind: Kind, f: Numbers, table: &[u8], number: u8) {
        let room = || Figures::try_from(f).map(|f| has_room(&f));
        if let Some(cause) = Cause::of(number, table, room) {
            self.count_cause(kind, cause);
        }
        if let (Op::JobWrite, Code::Larsson, 0) = (kind.op, kind.code, number) {
            let alone = Figures::try_from(Numbers::Ranked(f.ranked())).is_err();
            self.larsson_jobs[alone as usize] += 1;
        }
    }

    /// A move likewise, whose figures both codes take.
    pub fn count_move(&mut self, way: Way, f: Ranked, table: &[u8], number: u8) {
        let (n, q, m, b) = f;
        let room = || Layouts::new(n, q, m, b).map(|both| both.have_room());
        if let Some(cause) = Cause::of(number, table, room) {
            self.count_cause(way.op().into(), cause);
        }
        if let (0, Some(lengths)) = (number, way.lengths(f)) {
            self.moves[way as usize][lengths as usize] += 1;
        }
    }

    /// How many words were written or read, or refused for more than their figures and lengths.
    pub fn words(&self) -> u64 {
        let words = [
            Op::Encode,
            Op::Decode,
            Op::JobWrite,
            Op::JobRead,
            Op::PrescriptionWrite,
            Op::PrescriptionRead,
            Op::MoveToA,
            Op::MoveToLarsson,
        ];
        let judged = |kind: Kind| {
            let seen = &self.seen[kind.index()];
            seen[0] + seen[4..].iter().sum::<u64>()
        };
        let kinds = Kind::all().filter(|kind| words.contains(&kind.op));
        kinds.map(judged).sum()
    }

    /// Prints a line for each kind of call, and tells whether every answer that it can give was seen.
    pub fn summary(&self) -> bool {
        let mut complete = true;
        for kind in Kind::all() {
            let (name, seen) = (kind.name(), &self.seen[kind.index()]);
            let shown: Vec<String> = kind
                .possible()
                .map(|number| format!("{number}: {}", seen[number as usize]))
                .collect();
            let total: u64 = seen.iter().sum();
            println!("{name:>26} {total:>9}   {}", shown.join("  "));
            for number in kind.possible().filter(|&number| seen[number as usize] == 0) {
                println!("never seen: {name} answering {number}");
                complete = false;
            }
        }
        complete
            & self.causes_summary()
            & self.accepted_summary()
            & self.slips_summary()
            & self.jobs_summary()
    }

    /// Prints why calls were refused, and tells whether each kind was refused for all that it can be.
    fn causes_summary(&self) -> bool {
        let mut complete = true;
        for kind in Kind::all() {
            let seen = &self.causes[kind.index()];
            let causes = CAUSES.iter().filter(|&&(cause, _)| kind.has(cause));
            let shown: Vec<String> = causes
                .map(|&(cause, name)| {
                    complete &= seen[cause as usize] > 0;
                    format!("{name} {}", seen[cause as usize])
                })
                .collect();
            if !shown.is_empty() {
                println!("{:>26}   {}", kind.name(), shown.join(", "));
            }
        }
        if !complete {
            println!("never seen: some reason to refuse a call");
        }
        complete
    }

    /// Prints how often jobs were moved, and written by the Larsson code, and tells whether each kind was. One in three of the latter, at least, must have
    /// figures that Construction A doesn't take.
    fn jobs_summary(&self) -> bool {
        for (way, [shorter, as_long, longer]) in WAYS.iter().zip(self.moves) {
            let name = way.name();
            println!("moved {name}: to a shorter payload {shorter}, to one as long {as_long}, to a longer one {longer}");
        }
        let [both, alone] = self.larsson_jobs;
        println!("jobs written by the Larsson code: figures that Construction A takes too {both}, that it doesn't {alone}");
        let moved = self.moves.as_flattened().iter().all(|&seen| seen > 0);
        if !moved {
            println!("never seen: some kind of move");
        }
        let enough = both > 0 && 2 * alone >= both;
        if !enough {
            println!("too few: jobs by the Larsson code under figures that it alone takes");
        }
        moved && enough
    }

    fn slips_summary(&self) -> bool {
        let [none, one, several, all] = self.slips;
        println!("altered message cells: none {none}, one {one}, several {several}, all {all}");
        let complete = self.slips.iter().all(|&seen| seen > 0);
        if !complete {
            println!("never seen: some number of altered message cells");
        }
        complete
    }

    /// Prints how often each kind of pattern was accepted, and tells whether all were.
    fn accepted_summary(&self) -> bool {
        let mut complete = true;
        for (m, kinds) in self.accepted.iter().enumerate().skip(1) {
            let [none, one, two] = kinds;
            println!("accepted with m {m}, by parts without an F-block: none {none}, one {one}, two {two}");
            complete &= *one > 0 && *two > 0 && (*none > 0 || m <= 2);
        }
        let [_, one, two] = self.accepted_long;
        println!("accepted with one long run, by parts without an F-block: one {one}, two {two}");
        complete &= one > 0 && two > 0;
        for (m, kinds) in self.accepted_larsson.iter().enumerate().skip(1) {
            let [alone, least, more] = kinds;
            println!("accepted by the Larsson code with m {m}: one placement {alone}, m + 1 sub-blocks {least}, more {more}");
            // A word has 3 symbols or more, which one run of the 2 positions that then fit doesn't fill.
            complete &= *least > 0 && *more > 0 && (*alone > 0 || m == 1);
        }
        if !complete {
            println!("never seen: some kind of pattern, accepted");
        }
        complete
    }
}

/// How many parts of an accepted word have no block that starts with 0.
fn parts_without_fixed(f: &Figures, word: &[u8]) -> usize {
    let layout = Layout::new(f);
    let looks_fixed = |block: usize| word[layout.begin[block] as usize] == 0;
    let without = |&part: &usize| !(part * f.m..(part + 1) * f.m).any(looks_fixed);
    (0..f.p).filter(without).count()
}
