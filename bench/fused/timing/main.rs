//! Times the proved kernels over coded vectors compared with plain Rust in one process, after a check that both give the same.
mod data;
mod forms;
mod mixed;
mod native;
#[path = "../../kernels/timing/numbers.rs"]
mod numbers;
#[allow(dead_code)]
#[path = "../../kernels/timing/plain_packing.rs"]
mod plain_packing;
mod proved;
#[allow(dead_code)]
#[path = "../../kernels/timing/timer.rs"]
mod timer;
mod times;
#[allow(dead_code)]
#[path = "../../kernels/timing/word.rs"]
mod word;

fn main() {
    times::time_all::<u8, 128>();
    times::time_all::<u16, 64>();
    times::time_all::<u32, 32>();
    times::time_all::<u64, 16>();
}
