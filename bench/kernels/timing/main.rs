//! Times the proved kernels compared with plain Rust in one process, after a check that both give the same.
mod coding_times;
mod numbers;
mod packing_times;
mod plain_codings;
mod plain_packing;
mod proved;
mod timer;
mod word;

fn main() {
    packing_times::time_all::<u8>();
    packing_times::time_all::<u16>();
    packing_times::time_all::<u32>();
    packing_times::time_all::<u64>();
    coding_times::time_all::<u16>();
    coding_times::time_all::<u32>();
    coding_times::time_all::<u64>();
}
