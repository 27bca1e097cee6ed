//! What a user at a terminal sees: the stages, with counts and time. In a pipe, and with --quiet, nothing.

use std::cell::Cell;
use std::io::{stderr, IsTerminal};
use std::time::{Duration, Instant};

use indicatif::{ProgressBar, ProgressDrawTarget, ProgressStyle};

#[derive(Clone, Copy)]
pub struct Progress {
    shown: bool,
}

/// A stage under way.
pub struct Stage {
    name: &'static str,
    bar: Option<ProgressBar>,
    steps: Cell<u64>,
    began: Instant,
}

impl Progress {
    pub fn new(quiet: bool) -> Progress {
        Progress {
            shown: !quiet && stderr().is_terminal(),
        }
    }

    /// Begins a stage of so many steps; 0 where they cannot be counted.
    pub fn stage(self, name: &'static str, steps: u64) -> Stage {
        let template = match steps {
            0 => "{prefix:10} {spinner} {elapsed}",
            _ => "{prefix:10} {bar:40} {pos} of {len}  {elapsed}",
        };
        let bar = self.shown.then(|| {
            let bar =
                ProgressBar::with_draw_target(Some(steps), ProgressDrawTarget::stderr_with_hz(10))
                    .with_style(ProgressStyle::with_template(template).expect("a template"))
                    .with_prefix(name);
            bar.enable_steady_tick(Duration::from_millis(100));
            bar
        });
        Stage {
            name,
            bar,
            steps: Cell::new(0),
            began: Instant::now(),
        }
    }
}

impl Stage {
    /// One step more is done. Cheap enough for each of many.
    pub fn step(&self) {
        if let Some(bar) = &self.bar {
            self.steps.set(self.steps.get() + 1);
            if self.steps.get() % 1024 == 0 {
                bar.set_position(self.steps.get());
            }
        }
    }

    /// Ends the stage and says what it came to.
    pub fn done(self, result: &str) {
        if let Some(bar) = &self.bar {
            bar.finish_and_clear();
            eprintln!(
                "{:10} {result}  ({:.2} s)",
                self.name,
                self.began.elapsed().as_secs_f64()
            );
        }
    }
}

impl Drop for Stage {
    fn drop(&mut self) {
        if let Some(bar) = self.bar.take() {
            bar.finish_and_clear();
        }
    }
}
