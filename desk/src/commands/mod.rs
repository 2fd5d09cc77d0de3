//! Every command: how it is typed, what it does, an example, and what serves it.

mod figures;
mod jobs;
mod lanes;
mod pictures;
mod prescriptions;
mod racks;
mod strips;

use burgzemi::Table;

use crate::desk::{Desk, Outcome};
use crate::help;
use crate::words::Words;

pub struct Command {
    pub name: &'static str,
    pub usage: &'static str,
    pub does: &'static str,
    pub example: &'static str,
    pub serve: fn(&mut Desk, &mut Words) -> Outcome,
}

/// A row of the table below.
macro_rules! command {
    ($name:literal, $usage:literal, $does:literal, $example:literal, $serve:expr) => {
        Command {
            name: $name,
            usage: $usage,
            does: $does,
            example: $example,
            serve: $serve,
        }
    };
}

#[rustfmt::skip]
pub const COMMANDS: [Command; 27] = [
    command!("figures", "figures [N Q M B]", "sets the figures of Construction A; alone, shows which hold", "figures 60 4 2 4", figures::ranked),
    command!("long", "long N Q B", "sets those of a strip with one long burst, Construction B", "long 20 2 5", figures::long),
    command!("larsson", "larsson N Q M B", "sets those of an older tray, the Larsson code", "larsson 15 256 1 2", figures::larsson),
    command!("open", "open NUMBER", "opens a job", "open 7", |desk, words| jobs::call(desk, words, Table::open)),
    command!("cancel", "cancel NUMBER", "cancels a job, also one that the table doesn't hold", "cancel 7",
        |desk, words| jobs::call(desk, words, Table::cancel)),
    command!("finish", "finish NUMBER", "takes an open job out of the table", "finish 7", |desk, words| jobs::call(desk, words, Table::finish)),
    command!("reinstate", "reinstate NUMBER", "takes a cancellation back", "reinstate 7", |desk, words| jobs::call(desk, words, Table::reinstate)),
    command!("hold", "hold NUMBER", "lets an open job wait", "hold 7", |desk, words| jobs::call(desk, words, Table::hold)),
    command!("release", "release NUMBER", "opens a job on hold again", "release 7", |desk, words| jobs::call(desk, words, Table::release)),
    command!("jobs", "jobs", "lists what the table holds", "jobs", jobs::list),
    command!("cover", "cover [POSITION..]", "plans the bursts that cover worn positions", "cover 12 13 40-43", strips::cover),
    command!("write", "write NUMBER \"TEXT\" at START.. | on POSITION..", "writes an open job's strip, at these starts or covering these positions",
        "write 7 \"frame 3\" on 12 13 40", strips::write),
    command!("read", "read HEX", "reads a job's strip", "read 000000000741FFFF42430744454647", strips::read),
    command!("prescribe", "prescribe NUMBER R EYE L EYE PD MM at START.. | on POSITION..",
        "writes an open job's prescription; EYE is plano, a power, or sphere cylinder x axis",
        "prescribe 7 R -1.25 +0.50 x 90 L plano PD 63.5 at 6", prescriptions::prescribe),
    command!("prescription", "prescription HEX", "reads a prescription's strip", "prescription 0000000702FF000007F600045A000000000000007F00000000",
        prescriptions::read),
    command!("transpose", "transpose EYE", "shows the same lens with the cylinder's sign changed", "transpose -1.25 +0.50 x 90", prescriptions::transpose),
    command!("equivalent", "equivalent EYE", "shows the spherical equivalent", "equivalent -1.25 +0.50 x 90", prescriptions::equivalent),
    command!("encode", "encode HEX at START.. | on POSITION..", "writes a message that is no job, two digits a symbol", "encode 0102030405060708090A0B at 6",
        strips::encode),
    command!("decode", "decode HEX", "reads a strip's message, whatever it is", "decode 000000000741FFFF42430744454647", strips::decode),
    command!("check", "check HEX at START.. job NUMBER \"TEXT\" | message HEX", "says whether a strip from elsewhere holds this, whatever its bursts hold",
        "check 000000000741FFFF42430744454647 at 6 job 7 \"ABCDEFG\"", strips::check),
    command!("move", "move HEX", "moves a job's strip from an older tray to Construction A, or back", "move 060000000741FFFF42434445464706",
        strips::move_strip),
    command!("lanes", "lanes lay DEPTH HEX.. | take DEPTH HEX", "lays words side by side on one strip, or takes it apart", "lanes take 2 HEX", lanes::serve),
    command!("show", "show HEX [--svg FILE]", "draws a strip, also one that is refused", "show 000000000741FFFF42430744454647", pictures::show),
    command!("rates", "rates [N Q M] [--svg FILE]", "compares k/n of the three codes over b", "rates 1024 256 3 --svg rates.svg", pictures::rates),
    command!("rack", "rack FILE [jobs|prescriptions|messages]", "reads a file of strips, one a line, and counts the refusals", "rack evening.rack",
        racks::rack),
    command!("help", "help [NAME|REFUSAL]", "shows this, one command, or what a refusal means", "help 12", show_help),
    command!("quit", "quit", "leaves the prompt; so does the end of input", "quit", quit),
];

fn show_help(_: &mut Desk, words: &mut Words) -> Outcome {
    if words.peek().is_none() {
        return Ok(help::all().into());
    }
    let about = words.next("a command")?.to_owned();
    words.end()?;
    Ok(help::of(&about)?.into())
}

/// Whoever reads commands ends at this one; on the command line there is nothing to leave.
fn quit(_: &mut Desk, words: &mut Words) -> Outcome {
    words.end()?;
    Ok(String::new().into())
}
