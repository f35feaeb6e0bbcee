//! What a name is after some calls: that of a process, one that its number had earlier, or one that nobody had. For random
//! scripts, which draw names of every kind, and to tell which kinds came.

use crate::kernel::*;
use crate::random::Random;

#[derive(Clone, Copy, Debug, PartialEq, Eq, PartialOrd, Ord)]
pub enum Kind {
    Live,
    Returned,
    Kept,
    Unborn,
    Stale,
    StaleUnused,
    Bare,
    Never,
    Over31,
    Null,
    NullWithACount,
    Over65535,
}
use Kind::*;

/// All that a script can name.
pub const IN_SCRIPTS: [Kind; 11] = [Live, Returned, Kept, Unborn, Stale, StaleUnused, Bare, Never, Over31, Null, NullWithACount];

impl Kind {
    pub fn words(self) -> &'static str {
        match self {
            Live => "a process",
            Returned => "a process whose name an earlier one had, 256 births ago",
            Kept => "an unused number, by the last name that it had",
            Unborn => "a number that never was a process",
            Stale => "a process, by a name that an earlier one had",
            StaleUnused => "an unused number, by a name that an earlier process had",
            Bare => "a number alone, though it has a birth count",
            Never => "a number with a birth count that it has not reached",
            Over31 => "a number over 31",
            Null => "process 0",
            NullWithACount => "process 0 with a birth count",
            Over65535 => "more than 65,535",
        }
    }
}

/// How often each number was born, in all. The kernel counts to 255 and begins again.
#[derive(Clone, Debug, Default)]
pub struct Born {
    times: [u32; PROCESSES],
}

impl Born {
    /// Looks at the state after each call.
    pub fn follow(&mut self, kernel: &Kernel) {
        for (times, count) in self.times.iter_mut().zip(kernel.births) {
            *times += u32::from(*times % BIRTHS != u32::from(count));
        }
    }

    /// What a name is now.
    pub fn kind(&self, kernel: &Kernel, name: u32) -> Kind {
        let (number, count) = ((name % BIRTHS) as usize, name / BIRTHS);
        match number {
            _ if count >= BIRTHS => return Over65535,
            PROCESSES.. => return Over31,
            0 if count == 0 => return Null,
            0 => return NullWithACount,
            _ => (),
        }
        let times = self.times[number];
        let is_used = kernel.processes[number].is_some();
        let is_current = times % BIRTHS == count;
        match (is_current, is_used) {
            (true, true) if times > BIRTHS => Returned,
            (true, true) => Live,
            (true, false) if times == 0 => Unborn,
            (true, false) => Kept,
            _ if count == 0 => Bare,
            _ if count > times => Never,
            (false, true) => Stale,
            (false, false) => StaleUnused,
        }
    }

    /// A name of any kind, up to 65,535.
    pub fn draw(&self, kernel: &Kernel, random: &mut Random) -> u32 {
        let born: Vec<usize> = (1..PROCESSES).filter(|&number| self.times[number] > 0).collect();
        let number = match random.pick(&born) {
            Some(number) if !random.one_in(8) => number,
            _ => random.between(1, PROCESSES - 1),
        };
        let times = self.times[number] as usize;
        let with_count = |count: usize| number as u32 + BIRTHS * (count as u32 % BIRTHS);
        let any_count = random.below(BIRTHS as usize);
        match random.below(12) {
            0 | 1 => with_count(times.saturating_sub(1)),
            2 | 3 => with_count(times - random.between(times.min(1), times)),
            4 => with_count(times + 1),
            5 => with_count(any_count),
            6 => number as u32,
            7 => BIRTHS * random.pick(&[0, 0, 1, any_count as u32]).unwrap_or(0),
            8 => kernel.name(number) + (PROCESSES * random.between(1, 7)) as u32,
            9 => random.below((BIRTHS * BIRTHS) as usize) as u32,
            _ => kernel.name(number),
        }
    }
}

#[cfg(test)]
mod tests {
    use super::*;
    use crate::answer::{DONE, NO_SUCH_PROCESS};
    use crate::scripts::Script;

    fn check(born: &Born, kernel: &Kernel, expected: &[(u32, Kind)]) {
        for &(name, kind) in expected {
            assert_eq!(born.kind(kernel, name), kind, "{name}");
        }
    }

    #[test]
    fn kinds() {
        let (mut kernel, mut born) = (Kernel::fresh(), Born::default());
        check(&born, &kernel, &[(0, Null), (1, Unborn), (31, Unborn), (32, Over31), (255, Over31), (256, NullWithACount), (257, Never)]);
        let mut create = |kernel: &mut Kernel| {
            kernel.create(2);
            born.follow(kernel);
            born.clone()
        };
        let born = create(&mut kernel);
        check(&born, &kernel, &[(257, Live), (1, Bare), (513, Never), (258, Never), (2, Unborn), (288, Over31), (65_793, Over65535)]);
        kernel.end();
        check(&born, &kernel, &[(257, Kept), (1, Bare), (513, Never)]);
        create(&mut kernel);
        kernel.end();
        let born = create(&mut kernel);
        check(&born, &kernel, &[(769, Live), (513, Stale), (257, Stale), (1, Bare), (1_025, Never)]);
        kernel.end();
        check(&born, &kernel, &[(769, Kept), (513, StaleUnused), (257, StaleUnused), (1, Bare)]);
        for _ in 3..255 {
            create(&mut kernel);
            kernel.end();
        }
        let born = create(&mut kernel);
        check(&born, &kernel, &[(1, Live), (257, Stale), (65_281, Stale)]);
        kernel.end();
        check(&born, &kernel, &[(1, Kept), (257, StaleUnused)]);
        let born = create(&mut kernel);
        check(&born, &kernel, &[(257, Returned), (1, Bare), (513, Stale), (65_281, Stale)]);
    }

    /// Which kinds are taken, whatever the state is: by `stop` the names of processes, by `why` those of all numbers.
    #[test]
    fn kinds_that_are_taken() {
        for seed in [0, 1, 4] {
            let mut script = Script::new(seed, 300);
            let mut random = Random::new(seed);
            while script.next_line().is_some() {
                let mut kernel = script.kernel().clone();
                for _ in 0..4 {
                    let name = script.born().draw(&kernel, &mut random) + random.pick(&[0, 0, 0, 65_536]).unwrap_or(0);
                    let kind = script.born().kind(&kernel, name);
                    let code = |taken: bool| if taken { DONE } else { NO_SUCH_PROCESS };
                    assert_eq!(kernel.why(name).0.code, code([Live, Returned, Kept, Unborn, Null].contains(&kind)), "seed {seed}, {kind:?}");
                    let before = kernel.clone();
                    assert_eq!(kernel.stop(name).code, code([Live, Returned].contains(&kind)), "seed {seed}, {kind:?}");
                    assert_eq!(kernel == before, ![Live, Returned].contains(&kind));
                    kernel = before;
                }
            }
        }
    }
}
