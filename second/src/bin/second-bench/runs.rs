//! Runs of the two programs: instructions, times, and the least stack.

use std::fs::File;
use std::io::{Error, Result};
use std::path::{Path, PathBuf};
use std::process::{Command, Stdio};
use std::time::Instant;

use second_reading::lines::LINES;

pub struct Runs {
    /// The first program and the second.
    pub programs: [PathBuf; 2],
    /// Where the inputs are written.
    pub folder: PathBuf,
    /// Runs of each program on each input when they are timed.
    pub turns: usize,
}

impl Runs {
    /// Millions of instructions of both programs on each script, as callgrind counts them.
    pub fn counts(&self, scripts: &[String]) -> Result<Vec<[f64; 2]>> {
        let paths = self.written(scripts)?;
        let count = |path: &PathBuf| {
            let [first, second] = &self.programs;
            Ok([instructions(first, path)?, instructions(second, path)?])
        };
        paths.iter().map(count).collect()
    }

    /// Milliseconds of both programs on each script: the least of the turns. One input holds the script several times.
    pub fn times(&self, scripts: &[String]) -> Result<Vec<[f64; 2]>> {
        let copies = |script: &String| (LINES / (script.lines().count() + 1)).clamp(1, 40);
        let repeated: Vec<String> =
            scripts.iter().map(|script| format!("{script}(clear)\n").repeat(copies(script))).collect();
        let times = self.times_once(&repeated)?;
        Ok(times.iter().zip(scripts).map(|(two, script)| two.map(|time| time / copies(script) as f64)).collect())
    }

    /// The same with each script once. Programs and inputs take turns, so that a slow while of the machine meets all.
    pub fn times_once(&self, scripts: &[String]) -> Result<Vec<[f64; 2]>> {
        let paths = self.written(scripts)?;
        let mut least = vec![[f64::INFINITY; 2]; scripts.len()];
        for _ in 0..self.turns {
            for (path, least) in paths.iter().zip(&mut least) {
                for (program, least) in self.programs.iter().zip(least) {
                    *least = least.min(time(program, path)?);
                }
            }
        }
        Ok(least)
    }

    /// Writes the inputs, and sees that both programs print the same for them.
    fn written(&self, inputs: &[String]) -> Result<Vec<PathBuf>> {
        let mut paths = Vec::new();
        for (at, input) in inputs.iter().enumerate() {
            let path = self.folder.join(format!("{at}.plan"));
            std::fs::write(&path, input)?;
            if output(&self.programs[0], &path)? != output(&self.programs[1], &path)? {
                return Err(Error::other("the outputs differ; compare before measuring"));
            }
            paths.push(path);
        }
        Ok(paths)
    }

    /// The least stacks, in KB, in which the two programs run through an input.
    pub fn least_stacks(&self, script: &str) -> Result<[usize; 2]> {
        let path = &self.written(&[script.to_string()])?[0];
        Ok([least_stack(&self.programs[0], path)?, least_stack(&self.programs[1], path)?])
    }
}

fn output(program: &Path, input: &Path) -> Result<Vec<u8>> {
    let output = Command::new(program).stdin(File::open(input)?).output()?;
    if !output.status.success() {
        return Err(Error::other(format!("{} failed", program.display())));
    }
    Ok(output.stdout)
}

fn time(program: &Path, input: &Path) -> Result<f64> {
    let mut command = Command::new(program);
    command.stdin(File::open(input)?).stdout(Stdio::null());
    let begin = Instant::now();
    command.status()?;
    Ok(begin.elapsed().as_secs_f64() * 1000.0)
}

/// Whether instructions can be counted here.
pub fn counter_is_there() -> bool {
    Command::new("valgrind").arg("--version").output().is_ok_and(|output| output.status.success())
}

fn instructions(program: &Path, input: &Path) -> Result<f64> {
    let mut command = Command::new("valgrind");
    command.args(["--tool=callgrind", "--callgrind-out-file=/dev/null"]).arg(program);
    let output = command.stdin(File::open(input)?).stdout(Stdio::null()).stderr(Stdio::piped()).output()?;
    let report = String::from_utf8_lossy(&output.stderr).into_owned();
    let count = report.lines().find_map(|line| line.split("Collected :").nth(1)?.trim().parse::<f64>().ok());
    count.map(|count| count / 1e6).ok_or_else(|| Error::other(format!("no count of valgrind:\n{report}")))
}

/// By bisection, in steps of a page. The system moves the stack's start by up to 8 KB at random: twenty runs must pass.
fn least_stack(program: &Path, input: &Path) -> Result<usize> {
    let (mut too_small, mut enough) = (0, 2048);
    while enough - too_small > 1 {
        let middle = (too_small + enough) / 2;
        let mut passes = 0;
        while passes < 20 && runs_within(program, input, 4 * middle)? {
            passes += 1;
        }
        if passes == 20 {
            enough = middle;
        } else {
            too_small = middle;
        }
    }
    Ok(4 * enough)
}

/// Whether the program runs through with such a stack and an empty environment.
fn runs_within(program: &Path, input: &Path, kilobytes: usize) -> Result<bool> {
    let mut command = Command::new("/bin/sh");
    command.env_clear().args(["-c", "ulimit -s $1 && exec $0"]).arg(program).arg(kilobytes.to_string());
    let status = command.stdin(File::open(input)?).stdout(Stdio::null()).stderr(Stdio::null()).status()?;
    Ok(status.success())
}
