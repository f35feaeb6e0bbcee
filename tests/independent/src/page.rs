//! The page of docs/STATUS.md: where each process stands, in words, one line each.

use crate::kernel::*;
use crate::listing::*;

/// The page of a state, every line with its newline.
pub fn page(kernel: &Kernel) -> String {
    let mut page = line("Process", "Name", "Stands", "Class", "Ticks left", "In hand");
    let mut unused = 0;
    for number in 0..PROCESSES {
        let row = kernel.row(number);
        match place_in_words(&row) {
            None => unused += 1,
            Some(place) => {
                let name = kernel.name(number).to_string();
                page += &line(&number.to_string(), &name, &place, &row.class.to_string(), &row.ticks.to_string(), &hand_in_words(&row));
            }
        }
    }
    page + &unused_in_words(unused) + "\n"
}

fn line(process: &str, name: &str, stands: &str, class: &str, ticks: &str, hand: &str) -> String {
    format!("{process:<9}{name:<7}{stands:<30}{class:<7}{ticks:<12}{hand}\n")
}

/// None for an unused process.
fn place_in_words(row: &Row) -> Option<String> {
    let order = match row.position {
        0 => "first".to_string(),
        ahead => format!("{ahead} ahead"),
    };
    match row.place {
        RUNNING => Some("runs".to_string()),
        READY => Some(format!("ready in class {}, {order}", row.which)),
        AT_MAILBOX => Some(format!("at mailbox {}, {order}", row.which)),
        AT_SEMAPHORE => Some(format!("at semaphore {}, {order}", row.which)),
        STANDING_BY => Some("stands by".to_string()),
        _ => None,
    }
}

fn hand_in_words(row: &Row) -> String {
    match (row.full, row.length) {
        (0, _) => "nothing".to_string(),
        (_, 1) => "a message of 1 byte".to_string(),
        (_, length) => format!("a message of {length} bytes"),
    }
}

fn unused_in_words(unused: usize) -> String {
    match unused {
        0 => "No process is unused.".to_string(),
        1 => "1 process is unused.".to_string(),
        _ => format!("{unused} processes are unused."),
    }
}

#[cfg(test)]
mod tests {
    use super::*;
    use crate::example::everyone;

    #[test]
    fn fresh() {
        let lines = [
            "Process  Name   Stands                        Class  Ticks left  In hand",
            "0        0      runs                          0      0           nothing",
            "31 processes are unused.",
            "",
        ];
        assert_eq!(page(&Kernel::fresh()), lines.join("\n"));
    }

    #[test]
    fn every_place_and_hand() {
        let lines = [
            "Process  Name   Stands                        Class  Ticks left  In hand",
            "0        0      stands by                     0      0           nothing",
            "1        257    at mailbox 9, first           4      3           nothing",
            "2        258    at semaphore 15, first        3      3           a message of 1 byte",
            "3        259    at mailbox 9, 1 ahead         4      3           nothing",
            "4        260    runs                          2      2           a message of 0 bytes",
            "5        261    ready in class 1, first       1      3           nothing",
            "6        262    ready in class 1, 1 ahead     1      3           nothing",
            "7        263    ready in class 0, first       0      3           nothing",
            "24 processes are unused.",
            "",
        ];
        assert_eq!(page(&everyone()), lines.join("\n"));
    }

    #[test]
    fn ticks_of_other_slices() {
        for (slice, ticks) in [(1, "1  "), (5, "4  "), (255, "254")] {
            let mut kernel = Kernel::fresh_slice(slice).unwrap();
            kernel.create(2);
            kernel.create(2);
            kernel.wait(15); // 1 waits, 2 runs
            kernel.tick();
            let lines = [
                "Process  Name   Stands                        Class  Ticks left  In hand".to_string(),
                "0        0      stands by                     0      0           nothing".to_string(),
                format!("1        257    at semaphore 15, first        2      {slice:<3}         nothing"),
                format!("2        258    runs                          2      {ticks}         nothing"),
                "29 processes are unused.\n".to_string(),
            ];
            assert_eq!(page(&kernel), lines.join("\n"));
        }
    }

    /// A name has up to five digits; a number alone is one after 256 births.
    #[test]
    fn names_of_later_births() {
        let mut kernel = Kernel::fresh();
        for (births, name) in [(2, "513  "), (4, "1025 "), (255, "65281"), (256, "1    "), (257, "257  ")] {
            while kernel.births[1] != (births % 256) as u8 {
                kernel.end();
                kernel.create(2);
            }
            let lines = [
                "Process  Name   Stands                        Class  Ticks left  In hand".to_string(),
                "0        0      stands by                     0      0           nothing".to_string(),
                format!("1        {name}  runs                          2      5           nothing"),
                "30 processes are unused.\n".to_string(),
            ];
            assert_eq!(page(&kernel), lines.join("\n"));
        }
    }

    #[test]
    fn last_line() {
        let mut kernel = Kernel::fresh();
        let last_after = |kernel: &mut Kernel| {
            kernel.create(0);
            page(kernel).lines().last().map(str::to_string)
        };
        let said: Vec<_> = (1..PROCESSES).map(|_| last_after(&mut kernel)).collect();
        assert_eq!(said[0].as_deref(), Some("30 processes are unused."));
        assert_eq!(said[28].as_deref(), Some("2 processes are unused."));
        assert_eq!(said[29].as_deref(), Some("1 process is unused."));
        assert_eq!(said[30].as_deref(), Some("No process is unused."));
    }
}
