//! Random histories of the kernel from fresh, call by call, for tests of what is said of histories.

use independent::call::Call;
use independent::grammar::parse;
use independent::kernel::Kernel;
use independent::scripts::Script;

/// A call that was made, the code of its answer, and the kernel before and after it.
pub struct Moment {
    pub before: Kernel,
    pub call: Call,
    pub code: u32,
    pub after: Kernel,
}

/// The seeds of the histories. The script of seed 5 drives a count to its limit, which takes long, and is left out.
pub fn seeds() -> impl Iterator<Item = u64> {
    (0..48).filter(|seed| *seed != 5)
}

/// What the lines of a script do, those that are no calls left out.
pub fn moments(seed: u64) -> impl Iterator<Item = Moment> {
    let mut script = Script::new(seed, 500);
    let mut kernel = Kernel::fresh();
    std::iter::from_fn(move || script.next_line()).filter_map(|line| parse(&line)).map(move |call| {
        let before = kernel.clone();
        let code = kernel.apply(&call).0.code;
        Moment { before, call, code, after: kernel.clone() }
    })
}
