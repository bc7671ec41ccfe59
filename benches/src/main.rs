//! The benchmarks: times of the free-page test, of a forecast beside its commit, and of the proved library against the twin; wear against
//! SQLite and LMDB, and the erases of each block in long runs.

mod both;
mod clock;
mod forecast;
mod free;
mod growth;
mod library;
mod lmdb;
mod long;
mod others;
mod profile;
mod random;
mod reference;
mod report;
mod sqlite;
mod svg;
mod times;
mod twin;
mod wear;
mod work;

/// Rounds of a call, events of a workload, and commits of a long run.
const ROUNDS: usize = 200;
const EVENTS: usize = 16_000;
const COMMITS: usize = 5_000;

/// A page that starts with 0 is to be tested in less than this share of a free page's time.
const SHARE: f64 = 0.25;

/// A forecast is to take at most this share of the time of a commit with allowance 0; what is above 1 is for noise.
const AHEAD: f64 = 1.05;

/// The rounds of the forecasts in a quick run, which is held to that share too.
const FEW: usize = 21;

/// What the program may be asked for.
const WORDS: &str = "none, --times, --free, --forecast, --wear, --long, --quick, profile CALL BLOCKS ROUNDS library or twin, put NAME FILE";

/// Tables, printed; and put into the document unless the run is a quick one.
fn show(parts: &[(&str, String)], keep: bool) {
    for (name, table) in parts {
        println!("{table}");
        if keep {
            report::put(name, table);
        }
    }
}

/// The run fails, and says why.
fn fail(reason: &str) -> ! {
    eprintln!("benches: {reason}");
    std::process::exit(1);
}

/// The table of the free-page test. The run fails where a byte behind the first other one is read, or a page that starts with 0 takes
/// too long.
fn free(keep: bool) {
    if !free::ends_at_first() {
        fail("the free-page test looks at a byte behind the first that is not 255");
    }
    let rows = free::rows();
    let ratio = rows[0].ratio;
    let holds = ratio < SHARE;
    show(&[("free", report::free_table(&rows))], keep && holds);
    if !holds {
        fail(&format!("a page that starts with 0 is tested in {ratio:.3} of a free page's time, which is not under {SHARE}"));
    }
}

/// The table of the forecasts. The run fails where a forecast takes longer than a commit that is cut at its first operation.
fn forecast(rounds: usize, keep: bool) {
    let rows = forecast::rows(rounds);
    let late = rows.iter().find(|row| row.to_cut > AHEAD);
    show(&[("forecast", report::forecast_table(&rows))], keep && late.is_none());
    if let Some(row) = late {
        let (blocks, ratio) = (row.blocks, row.to_cut);
        fail(&format!("at B = {blocks} a forecast takes {ratio:.3} of the time of a commit with allowance 0, which is above {AHEAD}"));
    }
}

/// The tables of the times.
fn times(rounds: usize, keep: bool) {
    let load = report::load_average();
    let rows = times::table(rounds);
    let growth = growth::table(rounds);
    let machine = report::machine(rounds, &load);
    show(&[("machine", machine), ("times", report::times_table(&rows)), ("growth", report::growth_table(&growth))], keep);
    if keep {
        report::plot_times(&rows);
    }
}

/// The tables of the wear.
fn wear(events: usize, keep: bool) {
    let lines = wear::lines(events);
    let parts = [
        ("flash", wear::flash_table(&lines)),
        ("commits", wear::commit_table(&lines)),
        ("stores", report::stores(&lines)),
        ("handed", wear::others_table(&lines, &|o| o.wchar)),
        ("sent", wear::others_table(&lines, &|o| o.write_bytes)),
    ];
    show(&parts, keep);
    if keep {
        report::plot_wear(&lines);
    }
}

/// The table of the long runs. The run fails where a block is erased by two commits with none between them, or a commit that erases
/// leaves no page free.
fn long(commits: usize, keep: bool) {
    show(&[("long", long::table(&long::runs(commits)))], keep);
}

fn main() {
    let words: Vec<String> = std::env::args().collect();
    let words: Vec<&str> = words.iter().map(String::as_str).collect();
    match words[1..] {
        [] => {
            free(true);
            forecast(ROUNDS, true);
            times(ROUNDS, true);
            wear(EVENTS, true);
            long(COMMITS, true);
        }
        ["--times"] => {
            free(true);
            forecast(ROUNDS, true);
            times(ROUNDS, true);
        }
        ["--free"] => free(true),
        ["--forecast"] => forecast(ROUNDS, true),
        ["--wear"] => {
            wear(EVENTS, true);
            long(COMMITS, true);
        }
        ["--long"] => long(COMMITS, true),
        ["--quick"] => {
            free(false);
            forecast(FEW, false);
            times(3, false);
            wear(160, false);
            long(100, false);
        }
        ["profile", call, blocks, rounds, who] => profile::run(call, blocks.parse().unwrap(), rounds.parse().unwrap(), who),
        ["put", name, file] => report::put(name, &std::fs::read_to_string(file).unwrap()),
        ["border"] => free::child(),
        ["child", store, file, folder] => others::child(store, file, folder),
        _ => eprintln!("words: {WORDS}"),
    }
}
