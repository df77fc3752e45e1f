//! Standard output and standard error. Nothing here panics: output that can't be written ends the command with status 2.
use crate::said::{Said, Stop, UNUSABLE};
use std::io::{self, ErrorKind, Write};
use std::sync::atomic::{AtomicBool, Ordering};

/// Whether standard output was closed, or open for reading only, when the command began.
static CLOSED: AtomicBool = AtomicBool::new(false);

extern "C" {
    fn fcntl(descriptor: i32, command: i32) -> i32;
}

/// Asks how standard output (1) was opened, which fails where it is closed.
extern "C" fn look() {
    const F_GETFL: i32 = 3;
    const O_ACCMODE: i32 = 3;
    const O_RDONLY: i32 = 0;
    let flags = unsafe { fcntl(1, F_GETFL) };
    if flags == -1 || flags & O_ACCMODE == O_RDONLY {
        CLOSED.store(true, Ordering::SeqCst);
    }
}

/// Rust opens /dev/null for a closed standard output before `main`, and this is run before that.
#[used]
#[link_section = ".init_array"]
static LOOK: extern "C" fn() = look;

/// Stops where standard output is closed.
pub fn see_open() -> Result<(), Stop> {
    if CLOSED.load(Ordering::SeqCst) {
        return Err(Stop::new("standard output is closed"));
    }
    Ok(())
}

/// Writes it to standard output, all of it.
pub fn write(text: &str) -> Result<(), Stop> {
    see_open()?;
    let mut out = io::stdout().lock();
    out.write_all(text.as_bytes()).and_then(|()| out.flush()).map_err(|error| match error.kind() {
        // Whoever reads the output wants no more of it, and no message.
        ErrorKind::BrokenPipe => Stop::new(""),
        _ => Stop::new(format!("standard output: {}", in_words(&error))),
    })
}

/// An error of the system, without its number.
pub fn in_words(error: &io::Error) -> String {
    let text = error.to_string();
    text.split(" (os error").next().unwrap_or(&text).to_string()
}

fn note(text: &str) {
    // There is nowhere to tell that standard error can't be written.
    let _ = io::stderr().write_all(text.as_bytes());
}

/// Says what a part has to say. The exit status.
pub fn say(said: &Said) -> u8 {
    if let Err(stop) = write(&said.out) {
        return tell(&stop);
    }
    for text in &said.notes {
        note(&format!("tainhosa: {text}\n"));
    }
    said.status
}

/// Tells why the command stops. The exit status.
pub fn tell(stop: &Stop) -> u8 {
    if !stop.message.is_empty() {
        note(&format!("tainhosa: {}\n{}", stop.message, stop.usage.unwrap_or("")));
    }
    UNUSABLE
}
