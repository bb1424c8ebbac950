//! `generate SEED DIR` writes the script DIR/SEED.txt and the images that it names. `generate --census N` counts what the
//! seeds 1 to N cover.

use std::path::Path;
use std::process::ExitCode;

use reference::generate::census::Census;
use reference::generate::script;

fn write(seed: u64, dir: &Path) -> std::io::Result<()> {
    let script = script(seed);
    std::fs::create_dir_all(dir)?;
    std::fs::write(dir.join(format!("{seed}.txt")), &script.text)?;
    for (name, bytes) in &script.images {
        std::fs::write(dir.join(name), bytes)?;
    }
    Ok(())
}

fn census(seeds: u64) {
    let mut census = Census::default();
    for seed in 1..=seeds {
        census.add(&script(seed));
    }
    print!("{}", census.text());
}

fn main() -> ExitCode {
    let args: Vec<String> = std::env::args().skip(1).collect();
    let done = match args.as_slice() {
        [flag, seeds] if flag == "--census" => seeds.parse().ok().map(census),
        [seed, dir] => seed.parse().ok().and_then(|seed| write(seed, Path::new(dir)).ok()),
        _ => None,
    };
    if done.is_none() {
        eprintln!("generate SEED DIR, or generate --census N");
        return ExitCode::FAILURE;
    }
    ExitCode::SUCCESS
}
