//! Runs random scripts through the program `dock` and through the model, and compares.

mod calls;
mod ciphers;
mod damage;
mod ends;
mod failure;
mod gate;
mod prepare;
mod rng;
mod round;
mod runner;
mod script;
mod settings;
mod tally;
mod world;

use std::error::Error;
use std::fs;
use std::path::{Path, PathBuf};
use std::process::{Command, ExitCode};
use std::sync::atomic::{AtomicBool, AtomicUsize, Ordering};
use std::sync::Mutex;
use std::time::Instant;

use crate::ends::Task;
use crate::rng::Rng;
use crate::round::{first_of_round, run_round, scripts_of_round};
use crate::runner::{difference_of_lines, Runner};
use crate::settings::Settings;
use crate::tally::Tally;

type Outcome<T> = Result<T, Box<dyn Error + Send + Sync>>;

/// A round and the number of its scripts.
type Planned = (u64, usize);

fn main() -> ExitCode {
    match Settings::parse(std::env::args().skip(1)).and_then(|settings| compare(&settings)) {
        Ok(()) => ExitCode::SUCCESS,
        Err(error) => {
            eprintln!("compare: {error}");
            ExitCode::FAILURE
        }
    }
}

fn compare(settings: &Settings) -> Outcome<()> {
    if let (Some(folder), Some(round)) = (&settings.write, settings.round) {
        let mut rng = Rng::for_round(settings.seed, round);
        scripts_of_round(&mut rng);
        return Ok(gate::write(folder, &first_of_round(&mut rng))?);
    }
    println!("seed {}", settings.seed);
    if !settings.program.is_file() {
        return Err(format!("there is no program {}", settings.program.display()).into());
    }
    let begun = Instant::now();
    let mut tally = Tally::default();
    ciphers::check(&mut Rng::new(settings.seed), settings.vectors.as_deref())?;
    if let Some(program) = &settings.ends {
        compare_ends(program, &mut tally)?;
    }
    let plan = plan(settings);
    let scratch = scratch_folder()?;
    let done = run_all(settings, &plan, &scratch);
    fs::remove_dir_all(&scratch)?;
    tally.add(&done?);
    println!(
        "{} runs, {} rounds, {} calls, {threads} threads, {seconds:.1} seconds: no difference",
        tally.runs,
        plan.len(),
        tally.calls,
        threads = settings.threads,
        seconds = begun.elapsed().as_secs_f64()
    );
    print!("{}", tally.report());
    judge(settings, &tally)
}

/// Fails where a denial did not occur in a run that is long enough for all.
fn judge(settings: &Settings, tally: &Tally) -> Outcome<()> {
    let missing = tally.missing().join(", ");
    if missing.is_empty() || settings.round.is_some() {
        return Ok(());
    }
    Err(format!("these denials did not occur: {missing}; more runs or another seed may show them").into())
}

/// The program `ends` against the model, for the denials of the ends.
fn compare_ends(program: &Path, tally: &mut Tally) -> Outcome<()> {
    let task = Task::carried_out();
    let output = Command::new(program).output()?;
    let printed = String::from_utf8_lossy(&output.stdout);
    if let Some(what) = difference_of_lines(&task.text, &printed) {
        return Err(format!("the program ends: {what}").into());
    }
    for denial in task.denials {
        tally.count_denial("ends", denial);
    }
    println!("the program ends prints what the model prints");
    Ok(())
}

/// Rounds until there are as many scripts as asked for; or the one round that was asked for.
fn plan(settings: &Settings) -> Vec<Planned> {
    let scripts = |round| scripts_of_round(&mut Rng::for_round(settings.seed, round));
    if let Some(round) = settings.round {
        return vec![(round, scripts(round))];
    }
    let mut left = settings.runs;
    (0..)
        .map_while(|round| {
            let here = scripts(round).min(left);
            left -= here;
            (here > 0).then_some((round, here))
        })
        .collect()
}

/// A folder in memory, where the machine has one.
fn scratch_folder() -> Outcome<PathBuf> {
    let memory = Path::new("/dev/shm");
    let base = if memory.is_dir() { memory.into() } else { std::env::temp_dir() };
    let folder = base.join(format!("furrozain-compare-{}", std::process::id()));
    fs::create_dir_all(&folder)?;
    Ok(folder)
}

fn run_all(settings: &Settings, plan: &[Planned], scratch: &Path) -> Outcome<Tally> {
    let next = AtomicUsize::new(0);
    let stop = AtomicBool::new(false);
    let total = Mutex::new(Tally::default());
    std::thread::scope(|scope| {
        let threads: Vec<_> = (0..settings.threads)
            .map(|thread| {
                let folder = scratch.join(thread.to_string());
                let (next, stop, total) = (&next, &stop, &total);
                scope.spawn(move || -> Outcome<()> {
                    let mut runner = Runner::new(&settings.program, folder)?;
                    let mut tally = Tally::default();
                    while let Some(planned) = plan.get(next.fetch_add(1, Ordering::Relaxed)) {
                        if stop.load(Ordering::Relaxed) {
                            break;
                        }
                        run_planned(settings, *planned, &mut runner, &mut tally)
                            .inspect_err(|_| stop.store(true, Ordering::Relaxed))?;
                    }
                    total.lock().expect("no thread panics here").add(&tally);
                    Ok(())
                })
            })
            .collect();
        threads.into_iter().try_for_each(|thread| thread.join().expect("the thread does not panic"))
    })?;
    Ok(total.into_inner().expect("no thread panics here"))
}

fn run_planned(
    settings: &Settings,
    (round, scripts): Planned,
    runner: &mut Runner,
    tally: &mut Tally,
) -> Outcome<()> {
    let mut rng = Rng::for_round(settings.seed, round);
    scripts_of_round(&mut rng);
    let Some(failure) = run_round(&mut rng, scripts, runner, tally)? else {
        return Ok(());
    };
    let headline = format!("seed {}, round {round}", settings.seed);
    failure::save(&settings.failure, &headline, &failure)?;
    let folder = settings.failure.display();
    Err(format!("{headline}: {}\nscript and files are in {folder}", failure.difference.what).into())
}
