//! The command `bounds`; see `bounds --help`.

use std::process::ExitCode;

fn main() -> ExitCode {
    let words: Vec<String> = std::env::args_os().skip(1).map(|word| word.to_string_lossy().into_owned()).collect();
    match tool::cli::run(&words) {
        Ok(status) => ExitCode::from(status),
        Err(failure) => {
            // A closed standard error leaves the status, which says as much.
            let _ = std::io::Write::write_all(&mut std::io::stderr(), format!("{failure}\n").as_bytes());
            ExitCode::from(failure.status())
        }
    }
}
