//! Writes the recorded cases: `record DIRECTORY SEED`.

use std::process::ExitCode;

fn write(directory: &str, seed: u64) -> Result<(), String> {
    for file in reference::recorder::inputs(seed) {
        let output = file.output()?;
        let path = |ending: &str| format!("{directory}/{}.{ending}", file.name);
        let failed = |error: std::io::Error| error.to_string();
        std::fs::write(path("in"), &file.input).map_err(failed)?;
        std::fs::write(path("out"), &output).map_err(failed)?;
        let sizes = (file.input.len(), output.len());
        println!("{}: {} bytes in, {} bytes out", file.name, sizes.0, sizes.1);
    }
    Ok(())
}

fn main() -> ExitCode {
    let arguments: Vec<String> = std::env::args().collect();
    let [_, directory, seed] = &arguments[..] else {
        eprintln!("usage: record DIRECTORY SEED");
        return ExitCode::from(2);
    };
    let written = seed
        .parse()
        .map_err(|_| String::from("the seed is no number"))
        .and_then(|seed| write(directory, seed));
    match written {
        Ok(()) => ExitCode::SUCCESS,
        Err(error) => {
            eprintln!("{error}");
            ExitCode::FAILURE
        }
    }
}
