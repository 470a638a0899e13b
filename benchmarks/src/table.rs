//! The figures as markdown.

use crate::counts::Each;
use crate::numbers::grouped;
use crate::stack::Stack;
use crate::times::POOL;
use benchmarks::lines::Line;

/// The highest ratio that is wanted, and the most stack of a step, in KB.
const GOAL: f64 = 1.5;
const GOAL_STACK: usize = 96;

/// What was measured, by line, and for each line by side: the proved call, the model's, and what puts the
/// model's table back. Beside it the stack of the steps and the microseconds of copying a pool.
pub struct Figures {
    pub times: Vec<[f64; 3]>,
    pub counts: Option<Vec<Each>>,
    pub moved: Vec<Each>,
    pub stack: Stack,
    pub copy: f64,
}

fn kilobytes(bytes: usize) -> f64 {
    bytes as f64 / 1024.0
}

fn name(line: &Line) -> String {
    format!("{}{}", if line.core.is_some() { "Over a lent list: " } else { "" }, line.name)
}

impl Figures {
    /// The microseconds of a line: the model's, without putting back, and the proved call's.
    fn pair(&self, at: usize) -> (f64, f64) {
        let [proved, model, put_back] = self.times[at];
        (model - put_back, proved)
    }

    fn ratio(&self, at: usize) -> f64 {
        let (model, proved) = self.pair(at);
        proved / model
    }

    pub fn print(&self, lines: &[Line]) {
        print!("| call | model µs | proved µs | ratio | model instructions | proved instructions | ratio ");
        println!("| model bytes moved | proved bytes moved |\n|---|---|---|---|---|---|---|---|---|");
        lines.iter().enumerate().for_each(|(at, line)| self.print_row(at, line));
        self.print_notes(lines);
        self.print_lent(lines);
    }

    fn print_row(&self, at: usize, line: &Line) {
        let (model, proved) = self.pair(at);
        let goal = line.most.map_or(String::new(), |most| format!(" (goal {most})"));
        print!("| {} | {model:.2} | {proved:.2}{goal} | **{:.2}** ", name(line), self.ratio(at));
        match &self.counts {
            None => print!("| - | - | - "),
            Some(counts) => {
                let [proved, model, put_back] = counts[at];
                let model = model - put_back;
                let ratio = proved as f64 / model as f64;
                print!("| {} | {} | {ratio:.2} ", grouped(model), grouped(proved));
            }
        }
        let [proved, model, put_back] = self.moved[at];
        println!("| {} | {} |", grouped(model - put_back), grouped(proved));
    }

    fn print_notes(&self, lines: &[Line]) {
        let all = lines.len();
        let above = (0..all).filter(|&at| self.ratio(at) > GOAL).count();
        let worst =
            (0..all).max_by(|&a, &b| self.ratio(a).total_cmp(&self.ratio(b))).expect("there are lines");
        let (most, whose) = (self.ratio(worst), name(&lines[worst]));
        let put_back = self.times.iter().map(|sides| sides[2]).fold(0.0, f64::max);
        println!("\n- Ratio above {GOAL}: {above} of {all} lines. The worst is {most:.2}, {whose}.");
        println!("- Putting the model's table back took at most {put_back:.2} µs a round. It is not in the figures.");
        println!(
            "- Copying the {} bytes of a pool, one of 16 to the next, takes {:.2} µs.",
            grouped(POOL as u64),
            self.copy
        );
        let Stack { model, whole, step, at_most } = self.stack;
        let (model, whole) = (kilobytes(model), kilobytes(whole));
        let most = if at_most { "at most " } else { "" };
        let step = step.map_or("unknown".to_string(), |step| format!("{most}{:.1} KB", kilobytes(step)));
        print!("- Stack of a step, the most of those above: model {model:.1} KB, proved {step} ");
        println!(
            "(goal {GOAL_STACK} KB), and {whole:.1} KB with the loop that holds the table and the pool."
        );
    }

    fn print_lent(&self, lines: &[Line]) {
        println!("\n| step | by value µs | over a lent list µs | ratio (goal {GOAL}) |\n|---|---|---|---|");
        for (at, line) in lines.iter().enumerate() {
            let Some(core) = line.core else { continue };
            let (by_value, lent) = (self.times[core][0], self.times[at][0]);
            println!("| {} | {by_value:.2} | {lent:.2} | **{:.2}** |", line.name, lent / by_value);
        }
    }
}
