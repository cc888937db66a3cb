//! The few things that std does not tell: whether the output was closed from the start, a terminal's width, and Ctrl-C.
use std::ffi::{c_int, c_ulong};
use std::io::IsTerminal;
use std::sync::atomic::{AtomicBool, Ordering};

unsafe extern "C" {
    fn fcntl(file: c_int, command: c_int, ...) -> c_int;
    fn ioctl(file: c_int, request: c_ulong, ...) -> c_int;
    fn signal(number: c_int, handler: usize) -> usize;
}

// Linux's numbers
const F_GETFD: c_int = 1;
const TIOCGWINSZ: c_ulong = 0x5413;
const SIGINT: c_int = 2;
const SIG_DFL: usize = 0;

static WAS_OUTPUT_CLOSED: AtomicBool = AtomicBool::new(false);
static WAS_INTERRUPTED: AtomicBool = AtomicBool::new(false);

/// Runs before main: by then std has put /dev/null in the place of a closed output, and takes what is written there for read.
#[used]
#[unsafe(link_section = ".init_array")]
static LOOK_AT_OUTPUT: extern "C" fn() = look_at_output;

extern "C" fn look_at_output() {
    // SAFETY: F_GETFD takes no further argument, and any number may be asked about
    let flags = unsafe { fcntl(1, F_GETFD) };
    WAS_OUTPUT_CLOSED.store(flags < 0, Ordering::Relaxed);
}

/// Whether the tool was started without a standard output.
pub fn is_output_closed() -> bool {
    WAS_OUTPUT_CLOSED.load(Ordering::Relaxed)
}

/// The columns of the terminal behind the standard error; 80 where it does not say.
pub fn columns() -> usize {
    let mut size = [0_u16; 4];
    // SAFETY: TIOCGWINSZ writes four numbers of 16 bits
    let answer = unsafe { ioctl(2, TIOCGWINSZ, size.as_mut_ptr()) };
    match size[1] {
        columns if answer == 0 && columns > 0 => columns.into(),
        _ => 80,
    }
}

/// From now on Ctrl-C is noted, and a second one ends the tool.
pub fn note_interrupts() {
    // SAFETY: the handler does nothing that a handler may not: it stores into an atomic, and calls `signal`
    unsafe { signal(SIGINT, note_interrupt as *const () as usize) };
}

extern "C" fn note_interrupt(_: c_int) {
    WAS_INTERRUPTED.store(true, Ordering::Relaxed);
    // SAFETY: `signal` may be called in a handler
    unsafe { signal(SIGINT, SIG_DFL) };
}

pub fn is_interrupted() -> bool {
    WAS_INTERRUPTED.load(Ordering::Relaxed)
}

/// Whether an output is a terminal that knows more than plain lines.
pub fn is_screen(output: &impl IsTerminal) -> bool {
    let is_dumb = std::env::var_os("TERM").is_some_and(|name| name == "dumb");
    output.is_terminal() && !is_dumb
}

/// Colours only on a terminal that has them, and not where NO_COLOR is set to anything.
pub fn is_coloured(output: &impl IsTerminal) -> bool {
    let is_unwanted = std::env::var_os("NO_COLOR").is_some_and(|value| !value.is_empty());
    is_screen(output) && !is_unwanted
}
