//! Writes the planning sheets of the benchmark into a folder: the usual ones, or those of another seed.
//!
//! usage: generate FOLDER [SEED]
use deqibur_bench::draws::{hard_sheet, random_sheet, Limits};
use deqibur_bench::sheet::Sheet;
use std::path::Path;
use std::process::ExitCode;

fn sheets(seed: u64) -> Vec<(&'static str, Sheet)> {
    let random =
        |part: u64, sites, legs, limits| random_sheet(seed + part, sites, legs, 32, limits);
    vec![
        ("small-tight", random(1, 64, 256, Limits::Tight)),
        ("small-middle", random(2, 64, 256, Limits::Middle)),
        ("small-loose", random(3, 64, 256, Limits::Loose)),
        ("small-hard", hard_sheet(seed + 4, 8, 1000, 32)),
        ("large-tight", random(5, 1024, 4096, Limits::Tight)),
        ("large-middle", random(6, 1024, 4096, Limits::Middle)),
        ("large-loose", random(7, 1024, 4096, Limits::Loose)),
        ("large-hard", hard_sheet(seed + 8, 32, 8, 16)),
    ]
}

fn main() -> ExitCode {
    let mut arguments = std::env::args().skip(1);
    let folder = arguments.next();
    let seed = arguments.next().map_or(Ok(0), |seed| seed.parse::<u32>());
    let (Some(folder), Ok(seed)) = (folder, seed) else {
        eprintln!("usage: generate FOLDER [SEED]");
        return ExitCode::from(2);
    };
    for (name, sheet) in sheets(seed as u64) {
        let path = Path::new(&folder).join(format!("{name}.sheet"));
        if let Err(why) = std::fs::write(&path, sheet.to_string()) {
            eprintln!("{}: {why}", path.display());
            return ExitCode::FAILURE;
        }
    }
    ExitCode::SUCCESS
}
