//! Asks the library and the reference the same, and prints a difference whole.
use crate::call::{Call, Lent, Part};
use crate::tally::Tally;
use crate::{library, rows};
use std::panic::{catch_unwind, AssertUnwindSafe};
use std::process::exit;
use std::ptr::null_mut;
use std::sync::atomic::{AtomicPtr, Ordering};

/// Longer buffers are printed as the name of a file that holds them.
const PRINTED: usize = 4096;

/// A call as it is asked, and how to come to it again.
struct Asked {
    seed: u64,
    number: u64,
    call: Call,
}

/// The call that the library is at, for the case that it does not come back.
static AT: AtomicPtr<Asked> = AtomicPtr::new(null_mut());

extern "C" {
    fn signal(number: i32, handler: extern "C" fn(i32)) -> usize;
}

extern "C" fn killed(number: i32) {
    let asked = AT.swap(null_mut(), Ordering::SeqCst);
    match unsafe { asked.as_ref() } {
        None => println!("KILLED by signal {number} outside the library"),
        Some(asked) => {
            println!("THE LIBRARY IS KILLED by signal {number}");
            asked.print();
        }
    }
    exit(1);
}

/// Prints the input also where the library dies: SIGILL, SIGABRT, SIGBUS, SIGFPE, SIGSEGV.
pub fn catch_signals() {
    for number in [4, 6, 7, 8, 11] {
        unsafe { signal(number, killed) };
    }
}

/// Bytes as hex, or the file that they were written to.
pub fn hex(bytes: &[u8], file: &str) -> String {
    if bytes.len() <= PRINTED {
        return bytes.iter().map(|b| format!("{b:02x}")).collect();
    }
    let path = std::env::temp_dir().join(format!("tainhosa-{file}"));
    match std::fs::write(&path, bytes) {
        Ok(()) => format!("in {}", path.display()),
        Err(error) => format!("{error} at {}", path.display()),
    }
}

impl Asked {
    fn print_part(&self, name: &str, part: &Part, label: &str) {
        match part {
            Part::Number(n) => println!("  {name}: {n}"),
            Part::Row(row) => println!("  {name}, {} numbers: {:?}", row.len(), &row[..]),
            Part::Counts(row) => println!("  {name}, {} counts: {:?}", row.len(), &row[..]),
            Part::Bytes(b) => {
                let file = format!("{}-{}-{label}{name}", self.seed, self.number);
                println!("  {name}, {} bytes: {}", b.len(), hex(b, &file));
            }
        }
    }

    fn print(&self) {
        println!("{}, call {} of seed {}:", self.call.name(), self.number, self.seed);
        for (name, part) in self.call.parts() {
            self.print_part(name, &part, "");
        }
    }

    fn print_after(&self, who: &str, answer: u32, after: &Call) {
        println!("{who} answers {answer} and leaves");
        for (name, part) in after.parts() {
            if !matches!(part, Part::Number(_)) {
                self.print_part(name, &part, &format!("{who}-"));
            }
        }
    }
}

fn first_difference<T>(name: &str, ours: &Lent<T>, theirs: &Lent<T>) -> bool
where
    T: Copy + From<u8> + PartialEq + std::fmt::LowerHex,
{
    let difference = ours.difference(theirs);
    if let Some((at, a, b)) = difference {
        let outside = if at < 0 || at >= ours.len() as isize { ", outside the buffer" } else { "" };
        println!("first difference: {name}[{at}]{outside}: library {a:#04x}, reference {b:#04x}");
    }
    difference.is_some()
}

fn print_first_difference(ours: &Call, theirs: &Call) {
    for ((name, a), (_, b)) in ours.parts().iter().zip(theirs.parts()) {
        let found = match (a, b) {
            (Part::Bytes(a), Part::Bytes(b)) => first_difference(name, a, b),
            (Part::Row(a), Part::Row(b)) => first_difference(name, a, b),
            (Part::Counts(a), Part::Counts(b)) => first_difference(name, a, b),
            _ => false,
        };
        if found {
            return;
        }
    }
    println!("first difference: the number that is answered");
}

/// What the comparison has seen.
pub struct Compare {
    pub seed: u64,
    pub calls: u64,
    /// Of them, the power-ups and the arms that count erases.
    pub counted: [u64; 2],
    pub tally: Tally,
}

impl Compare {
    /// Makes the call on both sides. What the library answers and leaves; a difference ends the program.
    pub fn call(&mut self, call: Call) -> (u32, Call) {
        self.calls += 1;
        self.counted[0] += u64::from(matches!(call, Call::PowerUpCounted { .. }));
        self.counted[1] += u64::from(matches!(call, Call::ArmCounted { .. }));
        let (mut ours, mut theirs) = (call.clone(), call.clone());
        let mut asked = Asked { seed: self.seed, number: self.calls, call };
        AT.store(&mut asked, Ordering::SeqCst);
        let answer = library::answer(&mut ours);
        AT.store(null_mut(), Ordering::SeqCst);
        let expected = catch_unwind(AssertUnwindSafe(|| rows::answer(&mut theirs))).unwrap_or_else(|_| {
            println!("THE REFERENCE FAILS");
            asked.print();
            exit(1)
        });
        if answer != expected || ours != theirs {
            println!("DIFFERENCE");
            asked.print();
            asked.print_after("library", answer, &ours);
            asked.print_after("reference", expected, &theirs);
            print_first_difference(&ours, &theirs);
            exit(1);
        }
        self.tally.add(&asked.call, answer, &ours);
        (answer, ours)
    }

    /// Fails for these calls, whose buffers are as the library left them.
    pub fn fail(&self, what: &str, calls: &[&Call]) -> ! {
        println!("WRONG: {what}");
        for call in calls {
            Asked { seed: self.seed, number: self.calls, call: (*call).clone() }.print();
        }
        exit(1)
    }
}
