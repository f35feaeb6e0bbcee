//! Compares the calls that the board exports, made by tests/board/driver.c, with the independent kernel.
//!
//! Usage: board COMMAND..., where the command runs the driver. The last line is 'N passed, M failed'.

mod areas;
mod driver;

use areas::{damaged, every_bit_flipped, every_byte_changed, every_size_changed, full_mailboxes, out_of_place, random_bytes};
use driver::{Batch, Board};
use independent::call::Call;
use independent::chains::{every_change, pages_everywhere};
use independent::grammar::{named_slice, parse, SENT_BYTES};
use independent::image::{decide, field_of, image, take_bytes, BIRTH_COUNT, CAPACITY, IMAGE_BYTES};
use independent::kernel::{Kernel, Message, BIRTHS, LONGEST_MESSAGE, LONGEST_SLICE, PROCESSES, STORE_BYTES};
use independent::lengths::message;
use independent::mailboxes::History;
use independent::names::Born;
use independent::random::Random;
use independent::scripts::Script;
use std::io;
use std::time::{SystemTime, UNIX_EPOCH};

const FIXED_SEEDS: u64 = 64;
const SEEDS_A_DAY: u64 = 8;
const CALLS_A_SEED: u64 = 2_000;
/// Every so many sequences, the image that it leads to has every byte changed and every bit flipped in turn: eight, of all
/// styles. So has the fresh one.
const EVERY: usize = 9;
const DAMAGED: usize = 20_000;
const OUT_OF_PLACE: usize = 20_000;
const RANDOM_AREAS: usize = 2_000;
/// Rows of a table, tried in every state that a sequence leads to: none, too few, enough, more, and more than any table that
/// tests/board/driver.c is given else.
const TABLES: [usize; 7] = [0, 1, PROCESSES - 1, PROCESSES, PROCESSES + 1, PROCESSES + 2, 4_096];
/// The most rows that a table is given between calls.
const ROWS: usize = PROCESSES + 2;
/// Names that nobody has, some of which another width would take for others.
const BEYOND: [u32; 8] = [32, 33, 255, 256, 288, 65_536, 0x8000_0000, u32::MAX];

/// So many names that numbers do not have are asked about with those that they have.
const OTHER_NAMES: usize = 8;

/// Slices that there are not, some of which another width would take for others.
const REFUSED_SLICES: [u32; 11] = [0, 256, 257, 259, 511, 65_535, 65_536, 65_541, 0x8000_0003, 0xffff_ff05, u32::MAX];
/// Slices that are used up, tick by tick.
const USED_UP: [u32; 12] = [1, 2, 3, 4, 5, 6, 16, 127, 128, 129, 254, 255];
/// Lengths of a state area that it must not have, those without mailboxes' sizes and without chains among them, up to one that
/// tests/board/driver.c has room for.
const OTHER_LENGTHS: [usize; 9] = [0, 1, CAPACITY, IMAGE_BYTES - 32, IMAGE_BYTES - 1, IMAGE_BYTES + 1, 512, 2 * IMAGE_BYTES, 4_096];
/// The longest message or room that is lent, for which tests/board/driver.c has room.
const LONGEST_LENT: usize = 8_000;
/// Fresh starts are made on so many areas of each kind: sound, damaged and random ones.
const STARTED_AREAS: usize = 8;

/// The same call with a number past all that a script can name, or a longer message or room. The number of a stop is the name in
/// its lowest 16 bits.
fn enlarged(call: &Call, random: &mut Random) -> Call {
    let large = random.next() as u32 | 1 << 16;
    let longer = random.between(SENT_BYTES + 1, LONGEST_LENT);
    match call {
        Call::Send(mailbox, _) if random.one_in(4) => Call::Send(*mailbox, random.bytes(longer)),
        Call::Read(_) => Call::Read(longer as u32),
        Call::Create(_) => Call::Create(large),
        Call::Stop(name) => Call::Stop((large & 0xffff_0000) + name),
        Call::Class(_) => Call::Class(large),
        Call::Send(_, bytes) => Call::Send(large, bytes.clone()),
        Call::Receive(_) => Call::Receive(large),
        Call::Signal(_) => Call::Signal(large),
        Call::Mailbox(mailbox, capacity, mode) => enlarged_setting([*mailbox, *capacity, *mode], random),
        _ => Call::Wait(large),
    }
}

/// A setting with one of its numbers past all that a script can name: in fewer bits it is the same, or it is near 2^32.
fn enlarged_setting(mut numbers: [u32; 3], random: &mut Random) -> Call {
    let number = &mut numbers[random.below(3)];
    *number = match random.below(3) {
        0 => *number + (1 << random.between(16, 31)),
        1 => *number | (random.next() as u32 | 1) << 16,
        _ => u32::MAX - random.below(32) as u32,
    };
    let [mailbox, capacity, mode] = numbers;
    Call::Mailbox(mailbox, capacity, mode)
}

/// Calls from fresh, and what has been so far.
struct Sequence<'a> {
    batch: Batch,
    kernel: Kernel,
    store: &'a mut [u8],
    born: Born,
    history: History,
}

impl Sequence<'_> {
    /// Makes a call, and counts what it names and meets.
    fn make(&mut self, call: &Call) {
        self.batch.count_name(&self.kernel, &self.born, call);
        self.batch.count_visit(&self.kernel, &self.history, call);
        self.history.follow(&self.kernel, call);
        self.batch.call(&mut self.kernel, self.store, call);
        self.born.follow(&self.kernel);
    }

    /// Makes a call of a script; now and then another one with a number past all that a script can name before it, and behind it
    /// a question, a setting or a listing.
    fn go_on(&mut self, call: &Call, random: &mut Random) {
        if random.one_in(60) {
            self.make(&enlarged(call, random));
        }
        self.make(call);
        if random.one_in(12) {
            let name = self.born.draw(&self.kernel, random) + if random.one_in(10) { BIRTHS * BIRTHS } else { 0 };
            self.make(&Call::Why(name));
        }
        if random.one_in(25) {
            let setting = self.history.draw(&self.kernel, random);
            self.make(&if random.one_in(2) { enlarged(&setting, random) } else { setting });
        }
        if random.one_in(10) {
            let shortest = if random.one_in(4) { 0 } else { PROCESSES };
            self.batch.listing(&self.kernel, random.between(shortest, ROWS));
        }
        if random.one_in(100) {
            ask_about_all(&mut self.batch, &mut self.kernel, self.store, random);
        }
    }
}

/// The calls of a random script, from fresh, with the slice that its first line names; the kernel that they lead to.
fn sequence(seed: u64, calls: u64, store: &mut [u8]) -> (Batch, Kernel) {
    let mut batch = Batch::new(format!("seed {seed}"));
    let mut script = Script::new(seed, calls);
    let mut lines = std::iter::from_fn(|| script.next_line()).peekable();
    let mut random = Random::new(!seed);
    let mut area = batch.fresh(&[0; IMAGE_BYTES], IMAGE_BYTES, None);
    if let Some(slice) = lines.peek().and_then(|line| named_slice(line)) {
        area = batch.fresh(&area, IMAGE_BYTES, Some(slice));
    }
    let kernel = decide(&area).expect("the image of a fresh kernel");
    let mut run = Sequence { batch, kernel, store, born: Born::default(), history: History::default() };
    for line in lines {
        let Some(call) = parse(&line) else { continue };
        run.go_on(&call, &mut random);
        assert!(all_whole(&run.kernel, run.store), "the expected store holds every message whole");
    }
    let Sequence { mut batch, mut kernel, store, .. } = run;
    ask_about_all(&mut batch, &mut kernel, store, &mut random);
    for rows in TABLES {
        batch.listing(&kernel, rows);
    }
    (batch, kernel)
}

/// Asks why about every number by its name, about some by others, and about names that nobody has.
fn ask_about_all(batch: &mut Batch, kernel: &mut Kernel, store: &mut [u8], random: &mut Random) {
    let mut names: Vec<u32> = (0..PROCESSES).map(|number| kernel.name(number)).chain(BEYOND).collect();
    for _ in 0..OTHER_NAMES {
        let number = random.below(PROCESSES);
        names.push(another_name(number, kernel.name(number), random));
    }
    for name in names {
        batch.call(kernel, store, &Call::Why(name));
    }
}

/// The number alone, or what is easily taken for its name: that of another birth, of another number, or of another width.
fn another_name(number: usize, name: u32, random: &mut Random) -> u32 {
    match random.below(6) {
        0 => number as u32,
        1 => (name + BIRTHS * (BIRTHS - 1)) % (BIRTHS * BIRTHS),
        2 => (name + BIRTHS) % (BIRTHS * BIRTHS),
        3 => name + BIRTHS * BIRTHS,
        4 => name + PROCESSES as u32,
        _ => number as u32 + BIRTHS * random.below(BIRTHS as usize) as u32,
    }
}

/// Fresh starts on an area, whatever it holds: without a slice and with every one, with slices that there are not, and with
/// other lengths.
fn start_on(batch: &mut Batch, area: &[u8]) {
    for slice in [None].into_iter().chain((1..=LONGEST_SLICE).chain(REFUSED_SLICES).map(Some)) {
        batch.fresh(area, IMAGE_BYTES, slice);
    }
    for told in OTHER_LENGTHS {
        for slice in [None, Some(0), Some(1), Some(3), Some(255), Some(256), Some(u32::MAX)] {
            batch.fresh(area, told, slice);
        }
    }
}

/// Fresh starts on areas with everything that may be there before, full mailboxes of several sizes among them, and slices that
/// are used up.
fn start_on_all(board: &mut Board, today: u64, store: &mut [u8], images: &[Vec<u8>]) -> io::Result<()> {
    let mut random = Random::new(today);
    let mut batch = Batch::new(format!("fresh starts, seed {today}"));
    for turn in 0..STARTED_AREAS {
        for area in [images[EVERY * turn].clone(), damaged(images, &mut random), random_bytes(&mut random)] {
            start_on(&mut batch, &area);
        }
    }
    start_on(&mut batch, &image(&full_mailboxes()));
    USED_UP.into_iter().for_each(|slice| use_up(&mut batch, store, slice));
    board.run(&batch)?;
    println!("calls in fresh starts: {}", batch.calls());
    Ok(())
}

/// Two processes take turns until each has used up a slice.
fn use_up(batch: &mut Batch, store: &mut [u8], slice: u32) {
    let area = batch.fresh(&[0; IMAGE_BYTES], IMAGE_BYTES, Some(slice));
    let mut kernel = decide(&area).expect("the image of a fresh kernel");
    for _ in 0..2 {
        batch.call(&mut kernel, store, &Call::Create(2));
    }
    for _ in 0..2 * slice {
        batch.call(&mut kernel, store, &Call::Tick);
    }
}

fn all_whole(kernel: &Kernel, store: &[u8]) -> bool {
    kernel.held().flat_map(Message::parts).all(|(start, part)| store[start..].starts_with(part))
}

/// A name, by the birth counts that an area has: mostly one of a number from 0 to 31.
fn any_name(area: &[u8], random: &mut Random) -> u32 {
    let number = random.below(PROCESSES);
    let name = number as u32 + BIRTHS * u32::from(area[BIRTH_COUNT + number]);
    if random.one_in(4) {
        another_name(number, name, random)
    } else {
        name
    }
}

/// Any call, whatever the state in an area is.
fn any_call(area: &[u8], random: &mut Random) -> Call {
    let number = random.below(18) as u32;
    match random.below(13) {
        0 => Call::Create(number % 6),
        1 => Call::Stop(any_name(area, random)),
        2 => Call::End,
        3 => Call::Yield,
        4 => Call::Class(number % 6),
        5 => Call::Tick,
        6 => Call::Send(number, message(random)),
        7 => Call::Receive(number),
        8 => Call::Read(random.between(0, LONGEST_MESSAGE) as u32),
        9 => Call::Release,
        10 => Call::Signal(number),
        11 => Call::Mailbox(number, random.below(35) as u32, random.below(3) as u32),
        _ => Call::Wait(number),
    }
}

/// Asks why and makes a call on an area: both are refused exactly where the model's own decision refuses it. True if they
/// were not. Of the sound ones, one in ten is asked about every number.
fn judged(batch: &mut Batch, area: &[u8], store: &mut [u8], random: &mut Random) -> bool {
    let call = any_call(area, random);
    let question = Call::Why(any_name(area, random));
    batch.put(area);
    match decide(area) {
        Some(mut kernel) => {
            take_bytes(&mut kernel, store);
            batch.call(&mut kernel, store, &question);
            if random.one_in(10) {
                ask_about_all(batch, &mut kernel, store, random);
            }
            batch.call(&mut kernel, store, &call);
            true
        }
        None => {
            batch.refused(area, &question);
            batch.refused(area, &call);
            false
        }
    }
}

/// Judges areas with the board and the model, and prints how many are sound. Gives the numbers of those.
fn judge_all(board: &mut Board, name: String, store: &mut [u8], areas: impl Iterator<Item = Vec<u8>>) -> io::Result<Vec<usize>> {
    let mut random = Random::new(name.len() as u64);
    let mut batch = Batch::new(name.clone());
    let verdicts: Vec<bool> = areas.map(|area| judged(&mut batch, &area, store, &mut random)).collect();
    let sound: Vec<usize> = (0..verdicts.len()).filter(|&number| verdicts[number]).collect();
    board.run(&batch)?;
    println!("{name}: {}, of them sound: {}", verdicts.len(), sound.len());
    Ok(sound)
}

/// Fields in which a flipped bit may leave a state that is sound.
const UNNOTICED: [&str; 8] = ["class", "ticks", "length", "count", "births", "slice", "capacity", "mode"];

/// Flips each bit in turn, and prints in which fields nobody can notice it.
fn flip_all(board: &mut Board, name: &str, store: &mut [u8], sound: &[u8]) -> io::Result<()> {
    let flips = judge_all(board, format!("one bit flipped, {name}"), store, every_bit_flipped(sound).into_iter())?;
    let fields: Vec<&str> = flips.iter().map(|bit| field_of(bit / 8)).collect();
    assert!(fields.iter().all(|field| UNNOTICED.contains(field)), "a flip in another field leaves a sound state");
    let counts = UNNOTICED.map(|field| format!("{field} {}", fields.iter().filter(|other| **other == field).count()));
    println!("  in {}", counts.join(", "));
    Ok(())
}

/// Changes the size and the habit of each mailbox in turn. Which of that leaves a sound state is known beforehand.
fn resize_all(board: &mut Board, name: &str, store: &mut [u8], sound: &Kernel) -> io::Result<()> {
    let (areas, verdicts): (Vec<_>, Vec<bool>) = every_size_changed(sound).into_iter().unzip();
    let taken = judge_all(board, format!("one capacity or mode changed, {name}"), store, areas.into_iter())?;
    let right: Vec<usize> = (0..verdicts.len()).filter(|&number| verdicts[number]).collect();
    assert!(taken == right, "a size is taken that is not right, or the other way round");
    Ok(())
}

/// Changes the chains of buffers of a state in every way. Which of that leaves a sound state is known beforehand.
fn rechain_all(board: &mut Board, name: &str, store: &mut [u8], sound: &Kernel) -> io::Result<()> {
    let changes = every_change(sound);
    let taken = judge_all(board, format!("chains changed, {name}"), store, changes.iter().map(|change| change.area.clone()))?;
    let right: Vec<usize> = (0..changes.len()).filter(|&number| changes[number].is_sound).collect();
    assert!(taken == right, "a chain is taken that is not right, or the other way round");
    Ok(())
}

fn compare(board: &mut Board, today: u64) -> io::Result<()> {
    let mut store = vec![0; STORE_BYTES];
    let mut calls = 0;
    let mut kernels = vec![];
    for seed in (0..FIXED_SEEDS).chain(today..today + SEEDS_A_DAY) {
        let (batch, kernel) = sequence(seed, CALLS_A_SEED, &mut store);
        board.run(&batch)?;
        calls += batch.calls();
        kernels.push(kernel);
    }
    println!("calls in {} sequences: {calls}", kernels.len());

    let images: Vec<Vec<u8>> = kernels.iter().map(|kernel| image(kernel).to_vec()).collect();
    start_on_all(board, today, &mut store, &images)?;
    let fresh = ("fresh".to_string(), image(&Kernel::fresh()).to_vec());
    let after_seeds = (0..FIXED_SEEDS as usize).step_by(EVERY).map(|seed| (format!("after seed {seed}"), images[seed].clone()));
    for (number, (name, area)) in after_seeds.chain([fresh]).enumerate() {
        let areas = every_byte_changed(&area, &mut Random::new(number as u64));
        judge_all(board, format!("one byte changed, {name}"), &mut store, areas.into_iter())?;
        flip_all(board, &name, &mut store, &area)?;
    }
    resize_all(board, "full mailboxes", &mut store, &full_mailboxes())?;
    rechain_all(board, "pages everywhere", &mut store, &pages_everywhere())?;
    for seed in (0..FIXED_SEEDS as usize).step_by(EVERY) {
        resize_all(board, &format!("after seed {seed}"), &mut store, &kernels[seed])?;
        rechain_all(board, &format!("after seed {seed}"), &mut store, &kernels[seed])?;
    }
    let mut random = Random::new(today);
    judge_all(board, format!("several bytes changed, seed {today}"), &mut store, (0..DAMAGED).map(|_| damaged(&images, &mut random)))?;
    let mut random = Random::new(today);
    let displaced = (0..OUT_OF_PLACE).map(|turn| out_of_place(&kernels[turn % kernels.len()], &mut random));
    judge_all(board, format!("things out of place, seed {today}"), &mut store, displaced)?;
    let mut random = Random::new(today);
    judge_all(board, format!("random areas, seed {today}"), &mut store, (0..RANDOM_AREAS).map(|_| random_bytes(&mut random)))?;
    Ok(())
}

fn main() -> io::Result<()> {
    let words: Vec<String> = std::env::args().skip(1).collect();
    let mut board = Board::start(&words)?;
    let today = SystemTime::now().duration_since(UNIX_EPOCH).map_or(0, |since| since.as_secs() / 86_400);
    println!("seeds 0 to {} and, of the day, {today} to {}", FIXED_SEEDS - 1, today + SEEDS_A_DAY - 1);
    if compare(&mut board, today).is_err() {
        println!("0 passed, 1 failed");
        std::process::exit(1);
    }
    board.finish()
}
