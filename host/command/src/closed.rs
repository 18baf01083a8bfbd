//! Whether standard output was closed when the command was started. Before `main` the standard library opens /dev/null in the
//! place of a stream that is closed, so that whatever is printed is lost and looks printed. This looks before it does.

use std::sync::atomic::{AtomicBool, Ordering};

static CLOSED: AtomicBool = AtomicBool::new(false);

/// Whether nothing that is printed can be read by anybody.
pub fn standard_output() -> bool {
    CLOSED.load(Ordering::Relaxed)
}

#[cfg(target_os = "linux")]
#[allow(unsafe_code)]
mod early {
    use super::{Ordering, CLOSED};
    use std::ffi::c_int;

    extern "C" {
        fn fcntl(file: c_int, command: c_int, ...) -> c_int;
    }

    const STANDARD_OUTPUT: c_int = 1;
    const GET_FLAGS: c_int = 1;

    extern "C" fn look() {
        // SAFETY: asking for the flags of a file takes no other argument and changes nothing, whether the file is open or not.
        let flags = unsafe { fcntl(STANDARD_OUTPUT, GET_FLAGS) };
        CLOSED.store(flags == -1, Ordering::Relaxed);
    }

    // SAFETY: functions in this section are called once before `main`, without arguments that they need; this one uses nothing of
    // the standard library that has to be set up before.
    #[used]
    #[link_section = ".init_array"]
    static LOOK: extern "C" fn() = look;
}
