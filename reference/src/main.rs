//! Commands of the reference: play, generate, compare, vectors, moved, letter,
//! faults, selftest-faults and speed.

use std::collections::HashMap;
use std::fs::{self, File};
use std::io::{self, BufReader, BufWriter, Write};
use std::path::Path;
use std::process::ExitCode;
use std::str::FromStr;

use reference::compare::{compare, find_faults, printed, run_program, Verdict};
use reference::fault::{Fault, Planted, FAULTS};
use reference::generate::{List, Script};
use reference::letter::tell;
use reference::moved::Moved;
use reference::player::play;
use reference::speed;
use reference::story;
use reference::table;
use reference::vectors::{misses, Printed, Script as Table};

const USAGE: &str = "\
reference play                                          script on standard input, lines on standard output
reference generate --seed N --calls M [--home] [--out FILE]
                                                        the list as one script
reference compare --seed N --calls M [--home] --console PATH [--fault F] [--out FILE]
                                                        with the program at PATH; FILE gets a script that differs
reference vectors --table FILE [--console PATH] [--out FILE]
                                                        the table's cases; FILE gets their script
reference moved --script FILE --lines FILE [--console PATH]
                                                        plans that were written over bytes, moved, and asked for again
reference letter --story FILE --console PATH            the story, told by what the program at PATH prints
reference faults                                        the faults that --fault plants, and which need --home
reference selftest-faults --seed N --calls M [--home]   finds every fault of such lists, without another program
reference speed --calls M [--console PATH]              times both on one script";

/// Exit status for a difference, and for what cannot be done.
const DIFFERENT: u8 = 1;
const FAILED: u8 = 2;

/// How many cases that differ are shown.
const SHOWN: usize = 20;

type Answer = Result<ExitCode, String>;

fn main() -> ExitCode {
    let arguments: Vec<String> = std::env::args().skip(1).collect();
    let answer = match arguments.split_first() {
        Some((command, rest)) => Options::read(rest).and_then(|options| run(command, &options)),
        None => Err(USAGE.to_string()),
    };
    answer.unwrap_or_else(|message| {
        eprintln!("{message}");
        ExitCode::from(FAILED)
    })
}

fn run(command: &str, options: &Options) -> Answer {
    match command {
        "play" => play_standard_input(),
        "generate" => generate(options),
        "compare" => compare_with(options),
        "vectors" => play_table(options),
        "moved" => move_plans(options),
        "letter" => tell_story(options),
        "faults" => list_faults(),
        "selftest-faults" => selftest_faults(options),
        "speed" => measure_speed(options),
        _ => Err(USAGE.to_string()),
    }
}

/// Options without a value.
const FLAGS: [&str; 1] = ["--home"];

/// Options of the form `--name value`, and flags.
struct Options(HashMap<String, String>);

impl Options {
    fn read(arguments: &[String]) -> Result<Options, String> {
        let mut options = HashMap::new();
        let mut arguments = arguments.iter();
        while let Some(argument) = arguments.next() {
            let name = argument.strip_prefix("--").ok_or(USAGE)?;
            let value = match FLAGS.contains(&argument.as_str()) {
                true => String::new(),
                false => arguments.next().ok_or(USAGE)?.clone(),
            };
            options.insert(name.to_string(), value);
        }
        Ok(Options(options))
    }

    /// The call list that is asked for.
    fn list(&self) -> Result<List, String> {
        let (seed, calls) = (self.number("seed")?, self.number("calls")?);
        Ok(List { seed, calls, home: self.text("home").is_some() })
    }

    fn text(&self, name: &str) -> Option<&str> {
        self.0.get(name).map(String::as_str)
    }

    fn number<T: FromStr>(&self, name: &str) -> Result<T, String> {
        let text = self.text(name).ok_or(format!("--{name} is missing\n{USAGE}"))?;
        text.parse().map_err(|_| format!("--{name} {text}: not a number"))
    }
}

fn failed(error: io::Error) -> String {
    error.to_string()
}

fn play_standard_input() -> Answer {
    let mut input = BufReader::with_capacity(1 << 16, io::stdin().lock());
    let mut output = BufWriter::with_capacity(1 << 16, io::stdout().lock());
    play(&mut input, &mut output, Fault::None).map_err(failed)?;
    Ok(ExitCode::SUCCESS)
}

fn generate(options: &Options) -> Answer {
    let bytes = Script::joined(options.list()?.scripts()).bytes();
    match options.text("out") {
        None => io::stdout().write_all(&bytes).map_err(failed)?,
        Some(file) => write_file(file, &bytes)?,
    }
    Ok(ExitCode::SUCCESS)
}

fn read_text(name: &str) -> Result<String, String> {
    fs::read_to_string(name).map_err(|error| format!("{name}: {error}"))
}

fn write_file(name: &str, bytes: &[u8]) -> Result<(), String> {
    let write = File::create(name).and_then(|mut file| file.write_all(bytes));
    write.map_err(|error| format!("{name}: {error}"))
}

fn compare_with(options: &Options) -> Answer {
    let list = options.list()?;
    let console = options.text("console").ok_or("--console is missing")?;
    let fault = match options.text("fault") {
        None => Fault::None,
        Some(name) => Fault::named(name).ok_or(format!("no fault {name}"))?,
    };
    let List { seed, calls, home } = list;
    let of_home = if home { ", home" } else { "" };
    match compare(list, Path::new(console), fault).map_err(failed)? {
        Verdict::Agree { lines } => {
            println!("seed {seed}{of_home}: {calls} calls, {lines} lines agree");
            Ok(ExitCode::SUCCESS)
        }
        Verdict::Differ { number, script, difference } => {
            println!("seed {seed}{of_home}, script {number}: {difference}");
            if let Some(file) = options.text("out") {
                write_file(file, &script.bytes())?;
            }
            Ok(ExitCode::from(DIFFERENT))
        }
    }
}

fn play_table(options: &Options) -> Answer {
    let file = options.text("table").ok_or("--table is missing")?;
    let text = read_text(file)?;
    let rows = table::read(&text).map_err(|error| format!("{file}, {error}"))?;
    let table = Table::of(&rows);
    if let Some(out) = options.text("out") {
        write_file(out, &table.bytes())?;
    }
    let mut programs = vec![Printed::by_reference(&table)];
    if let Some(console) = options.text("console") {
        programs.push(Printed::by_console(&table, Path::new(console)).map_err(failed)?);
    }
    let misses = misses(&table, &programs);
    let (cases, lines) = (table.cases(), programs[0].lines());
    if misses.is_empty() {
        let agree = if programs.len() == 2 { "agree" } else { "of the reference alone" };
        println!("vectors: {cases} cases, {lines} lines {agree}");
        return Ok(ExitCode::SUCCESS);
    }
    misses.iter().take(SHOWN).for_each(|miss| println!("{file}, {miss}"));
    println!("vectors: {} of {cases} cases differ", misses.len());
    Ok(ExitCode::from(DIFFERENT))
}

fn move_plans(options: &Options) -> Answer {
    let file = options.text("script").ok_or("--script is missing")?;
    let lines = read_text(options.text("lines").ok_or("--lines is missing")?)?;
    let script = fs::read(file).map_err(|error| format!("{file}: {error}"))?;
    let moved = Moved::read(&script, &lines).map_err(|error| format!("{file}: {error}"))?;
    let mut programs = vec![("the reference", printed(&moved.script(), Fault::None))];
    if let Some(console) = options.text("console") {
        let lines = run_program(Path::new(console), moved.script()).map_err(failed)?;
        programs.push(("the console", lines));
    }
    for (program, lines) in &programs {
        if let Some(difference) = moved.difference(lines) {
            println!("moved: {program} answers otherwise, {difference}");
            return Ok(ExitCode::from(DIFFERENT));
        }
    }
    println!("moved: {} lines as before the move", moved.lines());
    Ok(ExitCode::SUCCESS)
}

fn tell_story(options: &Options) -> Answer {
    let file = options.text("story").ok_or("--story is missing")?;
    let console = options.text("console").ok_or("--console is missing")?;
    let text = read_text(file)?;
    let parts = story::read(&text).map_err(|error| format!("{file}, {error}"))?;
    match tell(&parts, Path::new(console)).map_err(failed)? {
        Ok(told) => {
            print!("{told}");
            Ok(ExitCode::SUCCESS)
        }
        Err(difference) => {
            println!("letter: the console and the reference differ: {difference}");
            Ok(ExitCode::from(DIFFERENT))
        }
    }
}

fn list_faults() -> Answer {
    for Planted { name, what, home, .. } in FAULTS {
        let list = if *home { "--home" } else { "-" };
        println!("{name:25} {list:6} {what}");
    }
    Ok(ExitCode::SUCCESS)
}

fn selftest_faults(options: &Options) -> Answer {
    let found = find_faults(options.list()?);
    let mut missed = 0;
    for (name, calls) in &found {
        match calls {
            Some(calls) => println!("{name:25} found after {calls} calls"),
            None => {
                missed += 1;
                println!("{name:25} NOT FOUND");
            }
        }
    }
    println!("{} faults, {missed} not found", found.len());
    Ok(if missed == 0 { ExitCode::SUCCESS } else { ExitCode::from(DIFFERENT) })
}

fn measure_speed(options: &Options) -> Answer {
    let calls = options.number("calls")?;
    let console = options.text("console").map(Path::new);
    let speed = speed::measure(calls, console).map_err(failed)?;
    let own = speed.own.as_secs_f64();
    println!("reference: {calls} calls in {own:.3} s");
    let Some((taken, same)) = speed.console else {
        return Ok(ExitCode::SUCCESS);
    };
    let taken = taken.as_secs_f64();
    println!("console:   {calls} calls in {taken:.3} s");
    println!("ratio:     {:.2} (console / reference)", taken / own);
    if same {
        return Ok(ExitCode::SUCCESS);
    }
    println!("the lines differ");
    Ok(ExitCode::from(DIFFERENT))
}
