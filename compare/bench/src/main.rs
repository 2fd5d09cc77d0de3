//! Times of the library, the second implementation and plain copies, the loops that instructions are counted in, the rates of
//! the codes, and the transfer programs' records a second.

mod lanes;
mod rates;
mod rows;
mod timing;
mod transfer;

use std::process::ExitCode;

use timing::{Calls, JOBS, WORDS};

fn main() -> ExitCode {
    let args: Vec<String> = std::env::args().skip(1).collect();
    let args: Vec<&str> = args.iter().map(String::as_str).collect();
    if run(&args).is_some() {
        return ExitCode::SUCCESS;
    }
    eprintln!(
        "usage: bench --times | --long-times | --larsson-times | --larsson-job-times | --rates"
    );
    eprintln!("       bench --rows | --long-rows | --larsson-rows");
    eprintln!("       bench --count ours|second encode|decode|silent|job-write|job-read ROW CALLS");
    eprintln!("       bench --time ours|second encode|decode|silent|job-write|job-read ROW | --transfer OURS SECOND");
    eprintln!("       bench --lanes | --count ours-interleave|second-interleave|ours-deinterleave|second-deinterleave|copy|byte-loop Q CALLS");
    ExitCode::from(2)
}

/// Does what the words ask for; None where they ask for nothing known.
fn run(args: &[&str]) -> Option<()> {
    match *args {
        ["--times"] => timing::table(&rows::rows(), &WORDS),
        ["--long-times"] => timing::table(&rows::long_rows(), &WORDS),
        ["--larsson-times"] => larsson_times(&WORDS),
        ["--larsson-job-times"] => larsson_times(&JOBS),
        ["--rates"] => rates::table(),
        ["--rows"] => rows::list(),
        ["--long-rows"] => rows::list_long(),
        ["--larsson-rows"] => rows::list_larsson(),
        ["--count", side, call, row, calls] => rows::count(side, call, row, calls)?,
        ["--time", side, call, row] => timing::once(side, call, row)?,
        ["--lanes"] => lanes::table(),
        ["--count", call, q, calls] => lanes::count(call, q, calls)?,
        ["--transfer", ours, second] => transfer::table(ours, second),
        _ => return None,
    }
    Some(())
}

/// The Larsson code's rows, and Construction A's beside them.
fn larsson_times(calls: &Calls) {
    let (larsson, beside): (Vec<_>, Vec<_>) = rows::larsson_rows().into_iter().unzip();
    timing::table(&larsson, calls);
    println!("Construction A with the same figures:");
    timing::table(&beside, calls);
}
