//! The command over a whole file, as a person runs it.

use paper::make::Pair;
use std::path::Path;
use std::process::{Command, Stdio};
use std::time::Instant;
use std::{env, fs, io, process};

/// How often it is run, and how many seconds it may take.
const RUNS: usize = 11;
const MOST: f64 = 0.2;

/// Times `ttw labels` over a pair, where the command stands beside this program.
pub fn print_labels(pair: &Pair) {
    let folder = env::temp_dir().join(format!("ttw-bench-{}", process::id()));
    let least = least_seconds(pair, &folder);
    // A folder that stays behind is no reason to stop.
    let _ = fs::remove_dir_all(&folder);
    let views = pair.views.len();
    match least {
        Ok(seconds) => {
            let mark = if seconds > MOST { "!" } else { "" };
            println!("\nttw labels over {views} views: {seconds:.3}{mark} s, bar {MOST} s");
        }
        Err(why) => println!("\nttw labels is not timed: {why}"),
    }
}

/// The least of several runs: what else the machine does only adds to it.
fn least_seconds(pair: &Pair, folder: &Path) -> io::Result<f64> {
    let ttw = env::current_exe()?.with_file_name("ttw");
    fs::create_dir(folder)?;
    fs::write(folder.join("changes1"), &pair.table)?;
    fs::write(folder.join("changes2"), &pair.points)?;
    let mut least = f64::INFINITY;
    for _ in 0..RUNS {
        let labels = fs::File::create(folder.join("labels"))?;
        let mut command = Command::new(&ttw);
        command.args(["labels", "changes1", "changes2"]);
        command.stdout(labels).stderr(Stdio::null());
        let start = Instant::now();
        let status = command.current_dir(folder).status()?;
        least = least.min(start.elapsed().as_secs_f64());
        if !matches!(status.code(), Some(0 | 1)) {
            return Err(io::Error::other(format!("it ended with {status}")));
        }
    }
    Ok(least)
}
