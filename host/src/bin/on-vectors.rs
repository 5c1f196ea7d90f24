//! `on-vectors FILE` holds the library to every case of a file (`vectors/README.md` says the format). It prints the name of each
//! case that differs, and last `N agree, M differ`. Exit status: 0 no case differs, 1 some do, 2 a case is not understood.

use janorembe::cases::cases;
use std::process::ExitCode;

fn run(path: &str) -> Result<bool, String> {
    let text = std::fs::read_to_string(path).map_err(|e| format!("{path}: {e}"))?;
    let all = cases(&text)?;
    let mut differ = 0;
    for case in &all {
        if !case.agrees()? {
            println!("{}", case.name);
            differ += 1;
        }
    }
    println!("{} agree, {differ} differ", all.len() - differ);
    Ok(differ == 0)
}

fn main() -> ExitCode {
    let args: Vec<String> = std::env::args().skip(1).collect();
    let [path] = args.as_slice() else {
        eprintln!("on-vectors FILE");
        return ExitCode::from(2);
    };
    match run(path) {
        Ok(true) => ExitCode::SUCCESS,
        Ok(false) => ExitCode::from(1),
        Err(why) => {
            eprintln!("on-vectors: {why}");
            ExitCode::from(2)
        }
    }
}
