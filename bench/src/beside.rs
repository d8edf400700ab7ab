//! Times the calls of workload files beside another engine, a program that has the same command `time`.
//! Each round times each file once with each engine, the files and the engines in random order.
use crate::random::Random;
use std::path::Path;
use std::process::Command;

/// Seconds of one timing.
const SECONDS: &str = "0.15";

/// A workload's file, the least time of this engine and of the other, and the ratio of each round.
struct Row<'a> {
    file: &'a str,
    best: [f64; 2],
    ratios: Vec<f64>,
}

impl Row<'_> {
    fn round(&mut self, random: &mut Random, engines: [&str; 2]) {
        let first = random.below(2) as usize;
        let mut times = [0.0; 2];
        for k in [first, 1 - first] {
            times[k] = least(engines[k], self.file);
            self.best[k] = self.best[k].min(times[k]);
        }
        self.ratios.push(times[0] / times[1]);
    }

    fn print(&mut self) {
        self.ratios.sort_by(f64::total_cmp);
        let [own, other] = self.best;
        println!(
            "| {} | {:.1} | {:.1} | {:.3} | {:.3} |",
            Path::new(self.file)
                .file_stem()
                .unwrap_or_default()
                .display(),
            own * 1e6,
            other * 1e6,
            own / other,
            self.ratios[self.ratios.len() / 2],
        );
    }
}

/// The least seconds of a pass that an engine prints.
fn least(engine: &str, file: &str) -> f64 {
    let output = Command::new(engine).args(["time", file, SECONDS]).output();
    let text = String::from_utf8(output.expect("the engine runs").stdout).expect("text");
    let mut words = text.split_whitespace().skip_while(|&w| w != "min").skip(1);
    let time = words.next().expect("`time` prints `min` and the seconds");
    time.parse().expect("seconds")
}

/// Prints a table: microseconds of a pass, the ratio of the least times, and the median ratio of a round.
pub fn beside(engine: &str, rounds: usize, files: &[&str]) {
    let own = std::env::current_exe().expect("this program");
    let own = own.to_str().expect("its path is text");
    let new = |&file| Row {
        file,
        best: [f64::INFINITY; 2],
        ratios: Vec::new(),
    };
    let mut rows: Vec<Row> = files.iter().map(new).collect();
    let random = &mut Random::new(91);
    for _ in 0..rounds {
        for k in 0..rows.len() {
            let other = k + random.below((rows.len() - k) as u64) as usize;
            rows.swap(k, other);
            rows[k].round(random, [own, engine]);
        }
    }
    rows.sort_by_key(|row| row.file);
    println!("| Workload | Proved, µs | Other engine | Ratio of the least times | Median ratio |");
    println!("|---|---|---|---|---|");
    rows.iter_mut().for_each(Row::print);
}
