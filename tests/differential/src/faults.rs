//! A fault while a call is made is reported like a difference: by its seed, round and call.

use crate::bench::tell_where;

const SIGNALS: [i32; 5] = [4, 6, 7, 8, 11];

extern "C" {
    fn signal(number: i32, handler: extern "C" fn(i32)) -> usize;
    fn _exit(status: i32) -> !;
}

/// The fault comes from a call, which holds no lock and no allocation, so printing is safe here.
extern "C" fn report(number: i32) {
    eprintln!(
        "DIFFERENCE: signal {number}, the call touched memory that it may not touch, or gave up"
    );
    tell_where();
    // SAFETY: ends the process.
    unsafe { _exit(1) }
}

/// Reports faults of the library (signals) and of the model (panics).
pub fn watch() {
    for number in SIGNALS {
        // SAFETY: the handler ends the process.
        unsafe { signal(number, report) };
    }
    let usual = std::panic::take_hook();
    std::panic::set_hook(Box::new(move |panic| {
        usual(panic);
        tell_where();
    }));
}
