//! Compares the proved library with the planner in plain Rust on one sheet: their answers, and their speed in one run.
//!
//! usage: compare SHEET REPEATS
use deqibur_bench::planner::{Outcome, Planner, LABELS};
use deqibur_bench::sheet::{Plan, Sheet};
use std::hint::black_box;
use std::process::ExitCode;
use std::time::{Duration, Instant};

/// Each time is measured so often, and the least counts: what disturbs a run only ever adds to it.
const ROUNDS: usize = 5;

/// More steps than any plan needs with room for 65,536 labels: every step but the last takes a label.
const STEPS: u32 = 1_000_000;

#[path = "../../../include/deqibur.rs"]
mod library;

/// A plan as a request, with the room and the steps of this benchmark.
fn request(plan: &Plan) -> library::Request {
    library::Request {
        labels: LABELS,
        limit: plan.limit,
        steps: STEPS,
        start: plan.start,
        goal: plan.goal,
    }
}

/// The text with which the library answers a sheet, if it has this length at the most.
fn sheet_text(sheet: &[u8], room: usize) -> Option<Vec<u8>> {
    let allowance = library::Allowance {
        sites: 1024,
        legs: 4096,
        labels: LABELS,
        steps: u32::MAX,
    };
    let mut text = vec![0; room];
    let written = library::plan_sheet(sheet, &allowance, &mut text);
    text.truncate(written.length);
    (written.code == 0).then_some(text)
}

/// What the library answers where the planner in Rust answers this, with a route of so many legs.
fn expected(answer: deqibur_bench::planner::Answer, legs: usize) -> library::Answer {
    let (outcome, cost, delay, number) = match answer.outcome {
        Outcome::Route { cost, delay } => (1, cost, delay, 0),
        Outcome::None => (2, 0, 0, 0),
        Outcome::LabelsUsed => (4, 0, 0, 16),
    };
    library::Answer {
        steps: answer.steps,
        cost,
        line: 0,
        legs: if outcome == 1 { legs } else { 0 },
        delay,
        outcome,
        number,
    }
}

/// The line of a plan that came to this.
fn line(plan: &Plan, answer: library::Answer, route: &[u16]) -> String {
    let library::Answer {
        steps, cost, delay, ..
    } = answer;
    let told = format!("{},{steps}", plan.broker);
    match answer.outcome {
        1 => route
            .iter()
            .fold(format!("route,{told},{cost},{delay}"), |line, leg| {
                format!("{line},{leg}")
            }),
        2 => format!("none,{told}"),
        _ => format!("stop,{told},{}", answer.number),
    }
}

/// The cost and the delay of a list of legs, if they lead from the start of a plan to its goal.
fn walk(sheet: &Sheet, plan: &Plan, route: &[u16]) -> Option<(u64, u32)> {
    let (mut site, mut cost, mut delay) = (plan.start, 0, 0);
    for &number in route {
        let leg = sheet.legs.get(usize::from(number))?;
        if leg.tail != site {
            return None;
        }
        site = leg.head;
        cost += u64::from(leg.fee);
        delay += leg.delay();
    }
    (site == plan.goal).then_some((cost, delay))
}

/// The least of several measurements.
fn least(mut measure: impl FnMut() -> Duration) -> Duration {
    (0..ROUNDS).map(|_| measure()).min().unwrap_or_default()
}

fn timed<T>(work: impl FnOnce() -> T) -> Duration {
    let start = Instant::now();
    black_box(work());
    start.elapsed()
}

/// The time that the library takes for `repeats` servings of a plan: a call that serves the plan so many times more takes that
/// much longer, everything else being the same.
fn library_time(sheet: &[u8], plan: &Plan, repeats: u32) -> Duration {
    let asked = request(plan);
    let more =
        least(|| timed(|| library::serve_again(black_box(sheet), black_box(&asked), repeats)));
    let once = least(|| timed(|| library::serve_again(black_box(sheet), black_box(&asked), 0)));
    more.saturating_sub(once)
}

/// The same for the planner in Rust, whose tables are made and warm already.
fn rust_time(planner: &mut Planner, plan: &Plan, repeats: u32) -> Duration {
    planner.serve(plan);
    least(|| {
        timed(|| {
            for _ in 0..repeats {
                black_box(planner.serve(black_box(plan)));
            }
        })
    })
}

/// What a run over all plans of a sheet came to.
#[derive(Default)]
struct Totals {
    routes: usize,
    steps: u64,
    most_labels: usize,
    library: Duration,
    rust: Duration,
}

fn compare(text: &str, sheet: &Sheet, repeats: u32) -> Result<Totals, String> {
    let mut planner = Planner::new(sheet);
    let mut totals = Totals::default();
    let mut legs = vec![0; LABELS];
    let mut lines = String::from("result,broker,steps,cost,delay,legs\n");
    for (i, plan) in sheet.plans.iter().enumerate() {
        let answer = planner.serve(plan);
        let theirs = library::serve(text.as_bytes(), &request(plan), &mut legs);
        let again = library::serve_again(text.as_bytes(), &request(plan), repeats);
        let ours = expected(answer, theirs.legs);
        if theirs != ours || again != ours {
            return Err(format!(
                "plan {i} ({plan:?}): the library answers {theirs:?} and {again:?}, the planner in Rust {ours:?}"
            ));
        }
        let route = &legs[..theirs.legs];
        if ours.outcome == 1 && walk(sheet, plan, route) != Some((ours.cost, ours.delay)) {
            return Err(format!(
                "plan {i} ({plan:?}): the legs {route:?} do not come to {ours:?}"
            ));
        }
        lines += &line(plan, ours, route);
        lines.push('\n');
        totals.routes += usize::from(ours.outcome == 1);
        totals.steps += ours.steps;
        totals.most_labels = totals.most_labels.max(planner.labels());
        totals.library += library_time(text.as_bytes(), plan, repeats);
        totals.rust += rust_time(&mut planner, plan, repeats);
    }
    if sheet_text(text.as_bytes(), lines.len()).as_deref() != Some(lines.as_bytes()) {
        return Err("the text that answers the sheet is another one".to_string());
    }
    Ok(totals)
}

fn report(sheet: &Sheet, repeats: u32, totals: &Totals) {
    let plans = sheet.plans.len();
    let micros = |time: Duration| time.as_secs_f64() * 1e6 / (plans as f64 * repeats as f64);
    print!(
        "compared sites={} legs={} plans={plans} routes={} steps_per_plan={:.1} most_labels={} differences=0\n\
         library us_per_plan={:.2}\nrust us_per_plan={:.2}\nratio={:.2}\n",
        sheet.sites,
        sheet.legs.len(),
        totals.routes,
        totals.steps as f64 / plans as f64,
        totals.most_labels,
        micros(totals.library),
        micros(totals.rust),
        micros(totals.library) / micros(totals.rust)
    );
}

fn run(path: &str, repeats: &str) -> Result<(), String> {
    let repeats: u32 = repeats
        .parse()
        .ok()
        .filter(|&repeats| repeats > 0)
        .ok_or("REPEATS must be a number above 0")?;
    let text = std::fs::read_to_string(path).map_err(|why| format!("{path}: {why}"))?;
    let sheet = Sheet::read(&text).map_err(|why| format!("{path}: {why}"))?;
    if sheet.plans.is_empty() {
        return Err(format!("{path}: there are no plans"));
    }
    let totals = compare(&text, &sheet, repeats)?;
    report(&sheet, repeats, &totals);
    Ok(())
}

fn main() -> ExitCode {
    let arguments: Vec<String> = std::env::args().skip(1).collect();
    let [path, repeats] = arguments.as_slice() else {
        eprintln!("usage: compare SHEET REPEATS");
        return ExitCode::from(2);
    };
    match run(path, repeats) {
        Ok(()) => ExitCode::SUCCESS,
        Err(why) => {
            eprintln!("FAILED: {why}");
            ExitCode::FAILURE
        }
    }
}
