//! Checks a sheet and plans over it, from Rust.

#[path = "../../include/deqibur.rs"]
mod deqibur;

/// Routes from 0 to 3 lead by 1 (fee 4, delay 9), by 2 (fee 5, delay 3) and straight (fee 9, delay 1).
const SHEET: &str = "network,4
leg,0,1,2,3,4,0
leg,1,3,2,1,5,0
leg,0,2,4,2,1,0
leg,2,3,1,2,2,0
leg,0,3,9,1,1,0
plan,7,0,3,9
plan,7,0,3,8
plan,12,0,3,0
plan,12,3,3,0
";

/// The first leg's fee has a leading 0, which no number may have.
const DAMAGED: &str = "network,4
leg,0,1,02,3,4,0
plan,7,0,3,9
";

/// What the program `batch` has.
const BATCH: deqibur::Allowance = deqibur::Allowance {
    sites: 64,
    legs: 256,
    labels: 1024,
    steps: 50_000,
};

fn check(text: &str) {
    let c = deqibur::check_sheet(text.as_bytes());
    println!(
        "check number={} line={} sites={} legs={} plans={}",
        c.number, c.line, c.sites, c.legs, c.plans
    );
}

fn request(limit: u32, labels: usize, steps: u32) -> deqibur::Request {
    deqibur::Request {
        labels,
        limit,
        steps,
        start: 0,
        goal: 3,
    }
}

fn serve(text: &str, limit: u32, labels: usize, steps: u32, room: usize) {
    let mut legs = vec![0; room];
    let a = deqibur::serve(text.as_bytes(), &request(limit, labels, steps), &mut legs);
    print!(
        "serve limit={limit} outcome={} number={} line={} steps={} cost={} delay={} legs={}",
        a.outcome, a.number, a.line, a.steps, a.cost, a.delay, a.legs
    );
    for leg in legs.get(..a.legs).unwrap_or_default() {
        print!(" {leg}");
    }
    println!();
}

fn serve_again(again: u32) {
    let a = deqibur::serve_again(SHEET.as_bytes(), &request(9, 1024, 50_000), again);
    println!(
        "again outcome={} cost={} delay={} legs={}",
        a.outcome, a.cost, a.delay, a.legs
    );
}

fn plan(text: &str, allowance: deqibur::Allowance, room: usize) {
    let mut output = vec![0; room];
    let w = deqibur::plan_sheet(text.as_bytes(), &allowance, &mut output);
    println!("plan room={room} code={} length={}", w.code, w.length);
    if w.code == 0 {
        print!("{}", String::from_utf8_lossy(&output[..w.length]));
    }
}

fn main() {
    let small = deqibur::Allowance {
        sites: 4,
        legs: 5,
        ..BATCH
    };
    check(SHEET);
    check(DAMAGED);
    check("network,1025\n");
    serve(SHEET, 9, 1024, 50_000, 4);
    serve(SHEET, 9, 1024, 50_000, 1);
    serve(SHEET, 8, 1024, 50_000, 4);
    serve(SHEET, 0, 1024, 50_000, 4);
    serve(SHEET, 9, 4, 50_000, 4);
    serve(SHEET, 9, 1024, 2, 4);
    serve(SHEET, 9, 0, 50_000, 4);
    serve(SHEET, 9, 65_537, 50_000, 4);
    serve(SHEET, 9, usize::MAX, 50_000, 4);
    serve(DAMAGED, 9, 1024, 50_000, 4);
    serve_again(3);
    plan(SHEET, BATCH, 96);
    plan(SHEET, BATCH, 97);
    plan(SHEET, deqibur::Allowance { steps: 5, ..small }, 256);
    plan(SHEET, deqibur::Allowance { labels: 0, ..small }, 256);
    plan(SHEET, deqibur::Allowance { legs: 4, ..small }, 256);
    plan(DAMAGED, BATCH, 256);
}
