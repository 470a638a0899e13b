//! `ring explore`: searches every order of a join plan. The first argument is the driver's path, which bin/explore gives. `ring explore --help`, of
//! the companion, has its words.

mod report;

use explore::action::{kind, DECLARE_DEAD, GRANT_EXPIRED, PROBE_TIME_OUT, TAKE};
use explore::engine::{nearest, room, Driver, Engine};
use explore::file::{self, Frame, Node, STATUSES};
use explore::moves::Mover;
use explore::options::Options;
use explore::plan::Plan;
use explore::question::QUESTIONS;
use explore::rows::{Row, ROWS};
use explore::search::{End, Progress, Search};
use explore::state::Records;
use explore::trouble::Trouble;
use std::process::ExitCode;
use std::time::{Duration, Instant};

fn main() -> ExitCode {
    let args: Vec<String> =
        std::env::args_os().skip(1).map(|word| word.to_string_lossy().into_owned()).collect();
    let args: Vec<&str> = args.iter().map(String::as_str).collect();
    match run(&args) {
        Ok(status) => ExitCode::from(status),
        Err(trouble) => {
            eprintln!("{trouble}");
            ExitCode::from(2)
        }
    }
}

fn failed(what: String) -> Trouble {
    Trouble::Failed(what)
}

fn run(args: &[&str]) -> Result<u8, Trouble> {
    match *args {
        [driver, "001", "all", ref words @ ..] => {
            report::say(Row::HEAD);
            for row in &ROWS {
                let mut options = options(words)?;
                options.questions.push(row.question());
                let mut engine = engine(driver, &options)?;
                let start = row.start(engine.as_mut())?;
                searched(engine.as_mut(), &start, row.plan, &options, &mut |search, end, seconds| {
                    report::say(&row.line(search, end, seconds.cpu));
                    Ok(0)
                })?;
            }
            Ok(0)
        }
        [driver, "001", name, ref words @ ..] => {
            let mut options = options(words)?;
            let row = Row::named(name)
                .ok_or_else(|| Trouble::Misuse(format!("{name}: table 4.1 has no such row")))?;
            options.questions.push(row.question());
            let mut engine = engine(driver, &options)?;
            let start = row.start(engine.as_mut())?;
            explore(driver, engine.as_mut(), &start, row.plan, &options)
        }
        [driver, table, plan, ref words @ ..] => {
            let mut options = options(words)?;
            if options.questions.is_empty() {
                options.questions = QUESTIONS[..3].iter().collect();
            }
            let read = |name: &str| std::fs::read(name).map_err(|error| Trouble::io(name, &error));
            let plan = String::from_utf8(read(plan)?).map_err(|_| failed(format!("{plan}: no text")))?;
            explore(driver, engine(driver, &options)?.as_mut(), &read(table)?, &plan, &options)
        }
        [_, "001"] => Err(Trouble::Misuse("ROW is missing".to_string())),
        [_, _] => Err(Trouble::Misuse("PLAN is missing".to_string())),
        _ => Err(Trouble::Misuse("TABLE is missing".to_string())),
    }
}

fn options(words: &[&str]) -> Result<Options, Trouble> {
    Options::parse(words).map_err(Trouble::Misuse)
}

fn engine(driver: &str, options: &Options) -> Result<Box<dyn Engine>, Trouble> {
    if options.by_driver {
        return Ok(Box::new(Driver::run(driver)?));
    }
    nearest(driver)
}

/// Searches, and tells what was found: the exit status.
fn explore(
    driver: &str,
    engine: &mut dyn Engine,
    start: &[u8],
    text: &str,
    options: &Options,
) -> Result<u8, Trouble> {
    let name = engine.name();
    searched(engine, start, text, options, &mut |search, end, seconds| {
        if !options.quiet {
            figures(search, name, seconds);
        }
        let table = file::read(start);
        report::say(&format!("from: M={} L={}, {}", table.frame.m, table.frame.l, statuses(&table.nodes)));
        report::tell(driver, search, start, end, options)
    })
}

/// What a search took: by the clock, and of the processor.
struct Seconds {
    clock: f64,
    cpu: f64,
}

/// Searches, and hands the search over with its end.
fn searched(
    engine: &mut dyn Engine,
    start: &[u8],
    text: &str,
    options: &Options,
    then: &mut dyn FnMut(&mut Search, End, Seconds) -> Result<u8, Trouble>,
) -> Result<u8, Trouble> {
    loads(engine, start)?;
    let frame = file::read(start).frame;
    let plan = plan(text, &frame, options)?;
    let records = Records::new(frame, options.key());
    let mover = Mover::new(engine, &plan, !options.every);
    let questions = options.questions.clone();
    let mut search = Search::new(records, mover, start, questions, options.bounds, options.audit);
    let (begun, before) = (Instant::now(), cpu());
    let end = search.run(Duration::from_secs(2), &mut |now| {
        if !options.quiet {
            let Progress { states, waiting, depth, rate } = now;
            eprintln!("{states} states, {waiting} to go on from, depth {depth}, {rate:.0} a second");
        }
    })?;
    let clock = begun.elapsed().as_secs_f64();
    let cpu = cpu().zip(before).map_or(clock, |(after, before)| after - before);
    if options.core {
        core_is_enough(&search, &plan)?;
    }
    then(&mut search, end, Seconds { clock, cpu })
}

/// The seconds that this process had of the processor, as Linux tells them.
fn cpu() -> Option<f64> {
    let told = std::fs::read_to_string("/proc/self/schedstat").ok()?;
    Some(told.split_whitespace().next()?.parse::<f64>().ok()? / 1e9)
}

/// Ends where the proved code refuses the table.
fn loads(engine: &mut dyn Engine, start: &[u8]) -> Result<(), Trouble> {
    // A Take of a place that no pool has: 1 where the table loads, else the number of its load.
    match engine.step(start, [TAKE, u64::MAX, 0], &mut room())?.number {
        1 => Ok(()),
        number => Err(Trouble::Refused(number)),
    }
}

fn plan(text: &str, frame: &Frame, options: &Options) -> Result<Plan, Trouble> {
    let n = frame.ids.len();
    let plan = Plan::parse(text, frame).map_err(|what| failed(format!("the plan, {what}")))?;
    let mut plan = plan.with_requests(n);
    if options.expiries {
        plan = plan.with_expiries(n);
    }
    plan.limits = options.limits;
    Ok(plan)
}

/// The ids of each status.
fn statuses(nodes: &[Node]) -> String {
    let of = |status: usize| {
        let ids: Vec<String> = nodes
            .iter()
            .filter(|node| node.status() == status as u32)
            .map(|node| node.id().to_string())
            .collect();
        (!ids.is_empty()).then(|| format!("{} {}", STATUSES[status], ids.join(" ")))
    };
    (0..4).rev().filter_map(of).collect::<Vec<String>>().join("; ")
}

/// Ends where what --core leaves out would be looked at.
fn core_is_enough(search: &Search, plan: &Plan) -> Result<(), Trouble> {
    let looks = [GRANT_EXPIRED, PROBE_TIME_OUT, DECLARE_DEAD];
    if let Some(action) = plan.actions.iter().find(|action| looks.contains(&action[0])) {
        let words = kind(action[0]).words;
        return Err(failed(format!("--core leaves grants out, and `{words}` looks at them")));
    }
    match search.records.far() {
        Some(id) => Err(failed(format!(
            "--core leaves routing sets out, and the next hop of {id} may look at its own"
        ))),
        None => Ok(()),
    }
}

fn figures(search: &Search, name: &str, seconds: Seconds) {
    let (states, asked, done) = (search.store.len(), search.mover.asked, search.done);
    let (rate, depth) = (states as f64 / seconds.cpu, search.depth());
    let (nodes, messages) = search.records.counts();
    let Seconds { clock, cpu } = seconds;
    eprintln!("{states} states, depth {depth}, {done} steps done, {asked} asked {name}");
    eprintln!("{nodes} nodes and {messages} messages as records, {} MB", search.bytes() >> 20);
    eprintln!("{clock:.2} s, {cpu:.2} s of the processor, {rate:.0} states a second of it");
}
