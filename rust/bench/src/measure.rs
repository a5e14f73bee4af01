//! Two calls timed side by side.

use std::time::{Duration, Instant};

/// The best time of the library and of plain Rust.
#[derive(Clone, Copy, Debug)]
pub struct Times {
    /// The verified library.
    pub library: Duration,
    /// Plain Rust.
    pub plain: Duration,
}

impl Times {
    /// How many times as long the library takes.
    pub fn ratio(self) -> f64 {
        self.library.as_secs_f64() / self.plain.as_secs_f64()
    }
}

/// Times both by turns, so that a busy machine slows both, and keeps the best of each. What
/// they hand back must be the same.
pub fn side_by_side<Result: PartialEq>(
    rounds: usize,
    library: impl Fn() -> Timed<Result>,
    plain: impl Fn() -> Timed<Result>,
) -> Times {
    let mut best = Times {
        library: Duration::MAX,
        plain: Duration::MAX,
    };
    for _ in 0..rounds {
        let (library, plain) = (library(), plain());
        assert!(
            library.result == plain.result,
            "the library and plain Rust differ"
        );
        best.library = best.library.min(library.took);
        best.plain = best.plain.min(plain.took);
    }
    best
}

/// What a call handed back, and how long it took.
pub struct Timed<Result> {
    /// The result.
    pub result: Result,
    /// The time.
    pub took: Duration,
}

/// Times a call.
pub fn timed<Result>(call: impl FnOnce() -> Result) -> Timed<Result> {
    let started = Instant::now();
    let result = call();
    Timed {
        result,
        took: started.elapsed(),
    }
}
