//! The machine in general words, for the page of figures: its cores, and how busy it was.

use std::{env, fs, thread};

pub fn told() -> String {
    let cores = thread::available_parallelism().map_or(1, |cores| cores.get());
    let kind = env::consts::ARCH;
    // Linux: the mean number of tasks that ran or wanted to run in the last minute.
    let load = fs::read_to_string("/proc/loadavg").unwrap_or_default();
    let load = load.split(' ').next().unwrap_or_default();
    format!("{cores} cores, {kind}; load of the machine in the minute before: {load}")
}
