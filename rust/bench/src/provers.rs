//! Whole-process times of settle on the ten rules and the axioms of groups, of a
//! process that does nothing, and of other provers on the axioms.

use kb_cases::theories;
use std::env;
use std::fs::{self, File};
use std::path::{Path, PathBuf};
use std::process::{Command, Stdio};
use std::time::{Duration, Instant};

const REPETITIONS: usize = 100;
/// What cargo sets for the programs it runs: folders in which every process would
/// look for its libraries first, on its own time.
const LIBRARY_PATH: &str = "LD_LIBRARY_PATH";
/// A process that takes this long is run once.
const LONG: Duration = Duration::from_millis(500);

const TPTP: &str = "\
cnf(left_identity, axiom, m(e,X) = X).
cnf(left_inverse, axiom, m(i(X),X) = e).
cnf(associativity, axiom, m(X,m(Y,Z)) = m(m(X,Y),Z)).
";

const DFG: &str = "\
begin_problem(Group).
list_of_descriptions.
name({*Group*}).
author({*none*}).
status(satisfiable).
description({*The three group axioms*}).
end_of_list.
list_of_symbols.
functions[(e,0),(i,1),(m,2)].
end_of_list.
list_of_formulae(axioms).
formula(forall([X],equal(m(e,X),X))).
formula(forall([X],equal(m(i(X),X),e))).
formula(forall([X,Y,Z],equal(m(X,m(Y,Z)),m(m(X,Y),Z)))).
end_of_list.
end_problem.
";

/// The program on PATH.
fn on_path(name: &str) -> Option<PathBuf> {
    let path = env::var_os("PATH")?;
    env::split_paths(&path)
        .map(|folder| folder.join(name))
        .find(|file| file.is_file())
}

/// The proved program, by VIGILBARN_SETTLE or at its usual place.
fn settle() -> PathBuf {
    let usual = Path::new(env!("CARGO_MANIFEST_DIR")).join("../../crates/settle/out/settle");
    env::var_os("VIGILBARN_SETTLE").map_or(usual, PathBuf::from)
}

/// Least time of the whole process, its input from a file.
fn least_time(program: &Path, arguments: &[&str], input: &Path) -> Option<Duration> {
    let mut least: Option<Duration> = None;
    for _ in 0..REPETITIONS {
        let mut command = Command::new(program);
        command.args(arguments).env_remove(LIBRARY_PATH);
        command.stdin(File::open(input).ok()?);
        command.stdout(Stdio::null()).stderr(Stdio::null());
        let start = Instant::now();
        command.status().ok()?.code()?;
        let time = start.elapsed();
        least = Some(least.map_or(time, |known| known.min(time)));
        if time > LONG {
            break;
        }
    }
    least
}

fn print_line(name: &str, time: Option<Duration>, settle: Option<Duration>) {
    match (time, settle) {
        (Some(time), Some(settle)) => {
            let ratio = time.as_secs_f64() / settle.as_secs_f64();
            println!(
                "{name:<30} {:>12.1} us  {ratio:>8.2} times the first",
                time.as_secs_f64() * 1e6
            );
        }
        _ => println!("{name:<30}  did not run"),
    }
}

/// Prints the times, or why there are none.
pub fn print() -> std::io::Result<()> {
    let settle = settle();
    if !settle.is_file() {
        println!("whole processes: no settle at {}", settle.display());
        return Ok(());
    }
    let folder = env::temp_dir().join(format!("kb_bench_{}", std::process::id()));
    fs::create_dir_all(&folder)?;
    let file = |name: &str| folder.join(name);
    let (rules, axioms) = (file("rules"), file("axioms"));
    let (tptp, dfg) = (file("group.p"), file("group.dfg"));
    fs::write(&rules, theories::group_rules().problem(1_000_000))?;
    fs::write(&axioms, theories::group_axioms().problem(1_000_000))?;
    fs::write(&tptp, TPTP)?;
    fs::write(&dfg, DFG)?;
    println!("whole processes on groups, least of {REPETITIONS}:");
    let own = least_time(&settle, &[], &rules);
    print_line("settle, ten rules", own, own);
    print_line("settle, axioms", least_time(&settle, &[], &axioms), own);
    let provers: [(&str, &[&str], &Path); 3] = [
        ("true, nothing", &[], &rules),
        (
            "eprover, axioms",
            &["--silent", "--auto", "--cpu-limit=20"],
            &tptp,
        ),
        ("SPASS, axioms", &["-TimeLimit=1"], &dfg),
    ];
    for (name, arguments, file) in provers {
        let Some(program) = on_path(name.split(',').next().unwrap_or(name)) else {
            println!("{name:<30}  not on PATH");
            continue;
        };
        let text = file.to_string_lossy();
        let arguments = [arguments, &[text.as_ref()]].concat();
        print_line(name, least_time(&program, &arguments, file), own);
    }
    fs::remove_dir_all(&folder)
}
