//! Plays generated scripts through `gate` and inputs through `explain`, and compares every line with what this package says.

use std::collections::BTreeMap;
use std::io::{Read, Write};
use std::path::{Path, PathBuf};
use std::process::{Child, Command, ExitCode, Stdio};
use std::sync::atomic::{AtomicBool, AtomicUsize, Ordering};
use std::sync::Mutex;
use std::time::{Duration, Instant, SystemTime};

use reference::bytes::{hex, LF};
use reference::explain::explain;
use reference::generate::{cut_again, some_input, some_script, Input, Script};
use reference::random::{seed_of, Random};
use reference::response::refusal;
use reference::script::{lines_of, play_all, read_settings, say, Player};
use reference::shrink::{shrink_input, shrink_script};

const USAGE: &str = "compare --gate GATE --explain EXPLAIN [--seed N] [--scripts N] [--inputs N] [--soak SECONDS] [--print-script INDEX | --print-input INDEX]";

/// A program that is still there after so many looks at it is stopped, and has failed. Looks are counted and not seconds, so that it does no harm when all
/// of this is halted for a while.
const MAX_LOOKS: usize = 100;
const BETWEEN_LOOKS: Duration = Duration::from_millis(200);
/// So many failures are shrunk and shown; the others are only counted.
const MAX_SHOWN: usize = 5;
const MAX_TRIES: usize = 4_000;

struct Options {
    gate: PathBuf,
    explain: PathBuf,
    seed: u64,
    scripts: usize,
    inputs: usize,
    soak: Option<u64>,
    print_script: Option<u64>,
    print_input: Option<u64>,
}

fn read_options() -> Option<Options> {
    let mut options =
        Options { gate: PathBuf::new(), explain: PathBuf::new(), seed: 1, scripts: 2_000, inputs: 5_000, soak: None, print_script: None, print_input: None };
    let mut arguments = std::env::args().skip(1);
    while let Some(name) = arguments.next() {
        let value = arguments.next()?;
        match name.as_str() {
            "--gate" => options.gate = value.into(),
            "--explain" => options.explain = value.into(),
            "--seed" => options.seed = value.parse().ok()?,
            "--scripts" => options.scripts = value.parse().ok()?,
            "--inputs" => options.inputs = value.parse().ok()?,
            "--soak" => options.soak = Some(value.parse().ok()?),
            "--print-script" => options.print_script = Some(value.parse().ok()?),
            "--print-input" => options.print_input = Some(value.parse().ok()?),
            _ => return None,
        }
    }
    Some(options)
}

/// What a program wrote, and how it ended.
#[derive(Clone, PartialEq, Eq)]
struct Said {
    output: Vec<u8>,
    /// The exit status, or none after a signal.
    status: Option<i32>,
    /// The number of the line that standard error complains of. Only the number is compared, and that there is something or nothing.
    bad_line: Option<usize>,
    errors: Vec<u8>,
}

impl Said {
    fn is_same(&self, other: &Said) -> bool {
        self.output == other.output && self.status == other.status && self.bad_line == other.bad_line && self.errors.is_empty() == other.errors.is_empty()
    }
}

/// The programs that run, one for each worker, with the number of looks at each, so that one that doesn't end can be stopped.
struct Running(Vec<Mutex<Option<(usize, Child)>>>);

impl Running {
    fn run(&self, worker: usize, command: &mut Command, input: &[u8]) -> (Vec<u8>, Vec<u8>, Option<i32>) {
        let mut child = command.stdin(Stdio::piped()).stdout(Stdio::piped()).stderr(Stdio::piped()).spawn().expect("the program starts");
        let mut stdin = child.stdin.take().unwrap();
        let mut stdout = child.stdout.take().unwrap();
        let mut stderr = child.stderr.take().unwrap();
        *self.0[worker].lock().unwrap() = Some((0, child));
        let mut output = Vec::new();
        let mut errors = Vec::new();
        std::thread::scope(|scope| {
            // A program may stop before it has read all.
            scope.spawn(move || drop(stdin.write_all(input)));
            scope.spawn(|| stderr.read_to_end(&mut errors));
            stdout.read_to_end(&mut output).expect("standard output is read");
        });
        let (_, mut child) = self.0[worker].lock().unwrap().take().unwrap();
        (output, errors, child.wait().expect("the program ends").code())
    }

    fn stop_the_slow(&self) {
        for place in &self.0 {
            if let Some((looks, child)) = place.lock().unwrap().as_mut() {
                *looks += 1;
                if *looks > MAX_LOOKS {
                    drop(child.kill());
                }
            }
        }
    }
}

/// The number behind the first `line ` of an error.
fn bad_line(errors: &[u8]) -> Option<usize> {
    let text = String::from_utf8_lossy(errors);
    let behind = &text[text.find("line ")? + 5..];
    let digits: String = behind.chars().take_while(|c| c.is_ascii_digit()).collect();
    digits.parse().ok()
}

/// How often each thing happened, as the reference says.
type Counts = BTreeMap<String, usize>;

fn count(counts: &mut Counts, what: &str, output: &[u8]) {
    for line in output.split(|&b| b == LF) {
        let Some(kind) = kind_of(line) else { continue };
        *counts.entry(format!("{what}: {kind}")).or_default() += 1;
    }
}

/// What kind of happening a line of output is: of a refusal with its number, of other lines the first words.
fn kind_of(line: &[u8]) -> Option<String> {
    let text = String::from_utf8_lossy(line);
    let words: Vec<&str> = text.split(' ').collect();
    let kind = match words.as_slice() {
        ["to", "client", _, bytes] => match (1..=14).find(|&number| hex(&refusal(number)) == *bytes) {
            Some(number) => format!("fault {number}"),
            None => "response".to_string(),
        },
        ["to", "server", ..] => "request".to_string(),
        ["end", ..] => "end".to_string(),
        ["down", ..] => "down".to_string(),
        ["pass", ..] => "pass".to_string(),
        ["fault", number, ..] => format!("fault {number}"),
        ["more"] => "more".to_string(),
        _ => return None,
    };
    Some(kind)
}

struct Work<'a> {
    options: &'a Options,
    running: Running,
    /// Settings files, one for each worker.
    files: Vec<PathBuf>,
}

impl Work<'_> {
    fn gate(&self, worker: usize, script: &Script) -> Said {
        let (output, errors, status) = self.running.run(worker, &mut Command::new(&self.options.gate), &script.text());
        Said { output, status, bad_line: bad_line(&errors), errors }
    }

    fn explain(&self, worker: usize, input: &Input) -> Said {
        let file = &self.files[worker];
        std::fs::write(file, input.settings.text()).expect("the settings are written");
        let (output, errors, status) = self.running.run(worker, Command::new(&self.options.explain).arg(file), &input.bytes);
        // The file's name as given stands before the line.
        let bad_line = errors.strip_prefix(format!("{}: line ", file.display()).as_bytes()).and_then(|rest| bad_line(&[b"line ", rest].concat()));
        Said { output, status, bad_line, errors }
    }
}

fn error_of(error: Option<(usize, String)>) -> (Option<i32>, Option<usize>, Vec<u8>) {
    match error {
        None => (Some(0), None, Vec::new()),
        Some((number, problem)) => (Some(1), Some(number), format!("line {number}: {problem}\n").into_bytes()),
    }
}

fn gate_reference(script: &Script) -> Said {
    let (output, error) = play_all(&script.text());
    let (status, bad_line, errors) = error_of(error);
    Said { output: output.into_bytes(), status, bad_line, errors }
}

fn explain_reference(input: &Input) -> Said {
    let (output, error) = match read_settings(&input.settings.text()) {
        Ok(servers) => (explain(&input.bytes, &servers), None),
        Err(error) => (Vec::new(), Some(error)),
    };
    let (status, bad_line, errors) = error_of(error);
    Said { output, status, bad_line, errors }
}

/// Plays a script line by line: all that a line brings about must have come before the next line is written.
fn play_in_steps(work: &Work, worker: usize, script: &Script) -> Result<(), String> {
    let mut child = Command::new(&work.options.gate).stdin(Stdio::piped()).stdout(Stdio::piped()).spawn().expect("the program starts");
    let mut stdin = child.stdin.take().unwrap();
    let mut stdout = child.stdout.take().unwrap();
    *work.running.0[worker].lock().unwrap() = Some((0, child));
    let mut player = Player::default();
    let mut played = Ok(());
    for (i, line) in lines_of(&script.text()).into_iter().enumerate() {
        let expected: String = player.play(line).unwrap_or_default().iter().map(|happening| say(happening) + "\n").collect();
        let mut came = vec![0; expected.len()];
        let written = stdin.write_all(&[line, b"\n"].concat());
        if written.and_then(|()| stdout.read_exact(&mut came)).is_err() || came != expected.as_bytes() {
            played = Err(format!("what line {} brings about has not come before the next line", i + 1));
            break;
        }
    }
    drop(stdin);
    let mut rest = Vec::new();
    drop(stdout.read_to_end(&mut rest));
    let (_, mut child) = work.running.0[worker].lock().unwrap().take().unwrap();
    drop(child.wait());
    played
}

/// Calls of `explain` that are refused, with what is wrong.
fn refused_calls(work: &Work) -> Verdict {
    let mut verdict = Verdict { passed: 0, failures: Vec::new(), counts: Counts::new() };
    let file = &work.files[0];
    std::fs::write(file, b"server h\n").expect("the settings are written");
    let missing = file.with_extension("missing");
    let calls: [(&str, Vec<&Path>); 4] =
        [("no file", vec![]), ("two files", vec![file, file]), ("a file that is not there", vec![&missing]), ("a folder", vec![file.parent().unwrap()])];
    for (what, arguments) in calls {
        let (output, errors, status) = work.running.run(0, Command::new(&work.options.explain).args(arguments), b"");
        if output.is_empty() && !errors.is_empty() && status == Some(1) {
            verdict.passed += 1;
        } else {
            verdict.failures.push(format!("explain with {what}: status {status:?}, {}", printable(&[output, errors].concat())));
        }
    }
    verdict
}

/// What came of one case: a line for a failure, with the shrunk input and both outputs.
struct Verdict {
    passed: usize,
    failures: Vec<String>,
    counts: Counts,
}

fn compare_script(work: &Work, worker: usize, seed: u64, index: u64, shown: &AtomicUsize) -> Verdict {
    let mut random = Random::new(seed_of(seed, 1, index));
    let script = some_script(&mut random);
    let mut verdict = Verdict { passed: 0, failures: Vec::new(), counts: Counts::new() };
    let mine = gate_reference(&script);
    let theirs = work.gate(worker, &script);
    count(&mut verdict.counts, "gate", &mine.output);
    if mine.is_same(&theirs) {
        verdict.passed += 1;
    } else {
        let title = format!("script {index} of seed {seed}");
        verdict.failures.push(if shown.fetch_add(1, Ordering::Relaxed) < MAX_SHOWN {
            let small = shrink_script(&script, MAX_TRIES, &mut |script| !gate_reference(script).is_same(&work.gate(worker, script)));
            show(&title, &small.text(), None, ("gate", &work.gate(worker, &small)), ("reference", &gate_reference(&small)))
        } else {
            title
        });
    }
    if mine.status != Some(0) {
        *verdict.counts.entry("gate: bad script".to_string()).or_default() += 1;
        return verdict;
    }
    if index % 20 == 0 && script.lines.len() < 600 {
        match play_in_steps(work, worker, &script) {
            Ok(()) => verdict.passed += 1,
            Err(problem) => verdict.failures.push(format!("script {index} of seed {seed} in steps: {problem}")),
        }
    }
    // The same bytes, cut in another way. Each side is compared with itself.
    let cut_seed = random.draw();
    let cut = |script: &Script| cut_again(&mut Random::new(cut_seed), script);
    let again = cut(&script);
    if theirs.is_same(&work.gate(worker, &again)) && mine.is_same(&gate_reference(&again)) {
        verdict.passed += 1;
    } else {
        let title = format!("script {index} of seed {seed} and its other cut");
        verdict.failures.push(if shown.fetch_add(1, Ordering::Relaxed) < MAX_SHOWN {
            let mut fails = |script: &Script| {
                let again = cut(script);
                if gate_reference(script).status != Some(0) {
                    return false;
                }
                !work.gate(worker, script).is_same(&work.gate(worker, &again)) || !gate_reference(script).is_same(&gate_reference(&again))
            };
            let small = shrink_script(&script, MAX_TRIES, &mut fails);
            let again = cut(&small);
            let (one, other) = (work.gate(worker, &small), work.gate(worker, &again));
            show(&title, &small.text(), Some(&again.text()), ("gate on the first", &one), ("gate on the other", &other))
        } else {
            title
        });
    }
    verdict
}

fn compare_input(work: &Work, worker: usize, seed: u64, index: u64, shown: &AtomicUsize) -> Verdict {
    let input = some_input(&mut Random::new(seed_of(seed, 2, index)));
    let mut verdict = Verdict { passed: 0, failures: Vec::new(), counts: Counts::new() };
    let mine = explain_reference(&input);
    count(&mut verdict.counts, "explain", &mine.output);
    if mine.is_same(&work.explain(worker, &input)) {
        verdict.passed += 1;
    } else {
        let title = format!("input {index} of seed {seed}");
        verdict.failures.push(if shown.fetch_add(1, Ordering::Relaxed) < MAX_SHOWN {
            let small = shrink_input(&input, MAX_TRIES, &mut |input| !explain_reference(input).is_same(&work.explain(worker, input)));
            let settings = small.settings.text();
            show(&title, &settings, Some(&small.bytes), ("explain", &work.explain(worker, &small)), ("reference", &explain_reference(&small)))
        } else {
            title
        });
    }
    if mine.status != Some(0) {
        *verdict.counts.entry("explain: bad settings".to_string()).or_default() += 1;
    }
    verdict
}

/// A text with bytes that don't print written as escapes, not too long.
fn printable(text: &[u8]) -> String {
    let mut out = String::new();
    for &b in text.iter().take(20_000) {
        match b {
            LF => out.push('\n'),
            32..=126 => out.push(b as char),
            _ => out.push_str(&format!("\\x{b:02x}")),
        }
    }
    if text.len() > 20_000 {
        out.push_str(&format!("... ({} bytes in all)", text.len()));
    }
    out
}

fn show(title: &str, text: &[u8], more: Option<&[u8]>, one: (&str, &Said), other: (&str, &Said)) -> String {
    let mut out = format!("---- {title}\n{}\n", printable(text));
    if let Some(more) = more {
        out += &format!("-- and\n{}\n", printable(more));
    }
    for (name, said) in [one, other] {
        out += &format!("-- {name} (status {:?})\n{}{}\n", said.status, printable(&said.output), printable(&said.errors));
    }
    out
}

/// Runs all cases of a seed on the workers, in no order, and adds what came of them to the total.
fn run_all(work: &Work, seed: u64, shown: &AtomicUsize, total: &mut Verdict) {
    let options = work.options;
    let next = AtomicUsize::new(0);
    let verdicts = Mutex::new(Vec::new());
    let done = AtomicBool::new(false);
    std::thread::scope(|scope| {
        scope.spawn(|| {
            while !done.load(Ordering::Relaxed) {
                std::thread::sleep(BETWEEN_LOOKS);
                work.running.stop_the_slow();
            }
        });
        let next = &next;
        let verdicts = &verdicts;
        let workers: Vec<_> = (0..work.files.len())
            .map(|worker| {
                scope.spawn(move || loop {
                    let index = next.fetch_add(1, Ordering::Relaxed);
                    let verdict = if index < options.scripts {
                        compare_script(work, worker, seed, index as u64, shown)
                    } else if index < options.scripts + options.inputs {
                        compare_input(work, worker, seed, (index - options.scripts) as u64, shown)
                    } else {
                        return;
                    };
                    verdicts.lock().unwrap().push(verdict);
                })
            })
            .collect();
        let ended: Vec<_> = workers.into_iter().map(|worker| worker.join()).collect();
        done.store(true, Ordering::Relaxed);
        for result in ended {
            result.expect("a worker ends");
        }
    });
    let mut verdicts = verdicts.into_inner().unwrap();
    verdicts.push(refused_calls(work));
    for verdict in verdicts {
        total.passed += verdict.passed;
        for failure in verdict.failures {
            println!("{failure}");
            total.failures.push(failure);
        }
        for (what, how_often) in verdict.counts {
            *total.counts.entry(what).or_default() += how_often;
        }
    }
}

fn main() -> ExitCode {
    let Some(options) = read_options() else {
        eprintln!("{USAGE}");
        return ExitCode::from(2);
    };
    if let Some(index) = options.print_script {
        let script = some_script(&mut Random::new(seed_of(options.seed, 1, index)));
        drop(std::io::stdout().write_all(&script.text()));
        return ExitCode::SUCCESS;
    }
    if let Some(index) = options.print_input {
        let input = some_input(&mut Random::new(seed_of(options.seed, 2, index)));
        print!("{}\n-- and\n{}\n", printable(&input.settings.text()), printable(&input.bytes));
        return ExitCode::SUCCESS;
    }
    for program in [&options.gate, &options.explain] {
        if !program.is_file() {
            eprintln!("there is no program {:?}\n{USAGE}", program);
            return ExitCode::from(2);
        }
    }
    let workers = std::thread::available_parallelism().map_or(2, |n| n.get()).min(4);
    let here = std::env::current_exe().expect("this program has a place");
    let folder = here.parent().unwrap_or(Path::new("."));
    let files: Vec<PathBuf> = (0..workers).map(|worker| folder.join(format!("compare-{}-{worker}.settings", std::process::id()))).collect();
    let running = Running((0..workers).map(|_| Mutex::new(None)).collect());
    let work = Work { options: &options, running, files };
    let shown = AtomicUsize::new(0);
    let mut total = Verdict { passed: 0, failures: Vec::new(), counts: Counts::new() };
    let start = Instant::now();
    match options.soak {
        None => run_all(&work, options.seed, &shown, &mut total),
        Some(seconds) => {
            let mut seed = SystemTime::now().duration_since(SystemTime::UNIX_EPOCH).map_or(1, |time| time.as_nanos() as u64) >> 16;
            while start.elapsed() < Duration::from_secs(seconds) {
                run_all(&work, seed, &shown, &mut total);
                println!("seed {seed}: {} passed, {} failed so far, after {} s", total.passed, total.failures.len(), start.elapsed().as_secs());
                seed += 1;
            }
        }
    }
    for file in &work.files {
        drop(std::fs::remove_file(file));
    }
    for (what, how_often) in &total.counts {
        println!("{how_often:>8} {what}");
    }
    println!("{} passed, {} failed", total.passed, total.failures.len());
    if total.failures.is_empty() {
        ExitCode::SUCCESS
    } else {
        ExitCode::from(1)
    }
}
