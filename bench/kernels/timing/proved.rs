//! The proved kernels, as the Rattle library exports them. A contract also requires that what is packed or coded fits the
//! width or the lanes, which the timed data does.
use crate::plain_codings::{Delta, Dict, For, Runs};
use crate::word::{Kernels, Word};

pub trait ProvedWord: Word {
    /// At a width that the caller gives.
    fn kernels() -> Kernels<Self>;

    /// At width 3, which the compiler knows.
    fn kernels_of_three() -> Kernels<Self>;
}

fn check_words<U: Word>(width: usize, words: &[U]) {
    assert!(width <= U::BITS && words.len() == width * U::LANES);
}

macro_rules! proved_word {
    ($($word:ty: $unpack:ident $pack:ident $sum:ident $unpack_three:ident $pack_three:ident $sum_three:ident;)*) => {
        unsafe extern "C" {
            $(fn $unpack(width: usize, words: *const $word, count: usize, values: &mut [$word; 1024]);
            fn $pack(width: usize, values: &[$word; 1024], words: *mut $word, count: usize);
            fn $sum(width: usize, words: *const $word, count: usize) -> u64;
            fn $unpack_three(words: *const $word, count: usize, values: &mut [$word; 1024]);
            fn $pack_three(values: &[$word; 1024], words: *mut $word, count: usize);
            fn $sum_three(words: *const $word, count: usize) -> u64;)*
        }

        $(impl ProvedWord for $word {
            fn kernels() -> Kernels<Self> {
                Kernels {
                    unpack: |width, words, values| {
                        check_words(width, words);
                        unsafe { $unpack(width, words.as_ptr(), words.len(), values) }
                    },
                    pack: |width, values, words| {
                        check_words(width, words);
                        unsafe { $pack(width, values, words.as_mut_ptr(), words.len()) }
                    },
                    sum: |width, words| {
                        check_words(width, words);
                        unsafe { $sum(width, words.as_ptr(), words.len()) }
                    },
                }
            }

            fn kernels_of_three() -> Kernels<Self> {
                Kernels {
                    unpack: |_, words, values| {
                        check_words(3, words);
                        unsafe { $unpack_three(words.as_ptr(), words.len(), values) }
                    },
                    pack: |_, values, words| {
                        check_words(3, words);
                        unsafe { $pack_three(values, words.as_mut_ptr(), words.len()) }
                    },
                    sum: |_, words| {
                        check_words(3, words);
                        unsafe { $sum_three(words.as_ptr(), words.len()) }
                    },
                }
            }
        })*
    };
}

proved_word! {
    u8: lane_kernels_unpack_8 lane_kernels_pack_8 lane_kernels_sum_8
        lane_kernels_unpack_three_8 lane_kernels_pack_three_8 lane_kernels_sum_three_8;
    u16: lane_kernels_unpack_16 lane_kernels_pack_16 lane_kernels_sum_16
        lane_kernels_unpack_three_16 lane_kernels_pack_three_16 lane_kernels_sum_three_16;
    u32: lane_kernels_unpack_32 lane_kernels_pack_32 lane_kernels_sum_32
        lane_kernels_unpack_three_32 lane_kernels_pack_three_32 lane_kernels_sum_three_32;
    u64: lane_kernels_unpack_64 lane_kernels_pack_64 lane_kernels_sum_64
        lane_kernels_unpack_three_64 lane_kernels_pack_three_64 lane_kernels_sum_three_64;
}

/// The proved side of a coding.
pub trait ProvedCoding {
    fn proved_size(values: &[i64; 1024], lane_width: usize) -> u16;

    /// The bytes of the form, which is dropped.
    fn proved_encode(values: &[i64; 1024], lane_width: usize) -> u16;

    /// A sum over all that the form stores.
    fn proved_sum(values: &[i64; 1024], lane_width: usize) -> u64;

    /// Encodes once, and decodes so many times.
    fn proved_decode(values: &[i64; 1024], lane_width: usize, times: usize, into: &mut [i64; 1024]);
}

macro_rules! proved_coding {
    ($([$($coding:tt)*] $size:ident $encode:ident $sum:ident $decode:ident;)*) => {
        unsafe extern "C" {
            $(fn $size(values: &[i64; 1024], lane_width: usize) -> u16;
            fn $encode(values: &[i64; 1024], lane_width: usize) -> u16;
            fn $sum(values: &[i64; 1024], lane_width: usize) -> u64;
            fn $decode(values: &[i64; 1024], lane_width: usize, times: usize, into: &mut [i64; 1024]) -> bool;)*
        }

        $(impl $($coding)* {
            fn proved_size(values: &[i64; 1024], lane_width: usize) -> u16 {
                unsafe { $size(values, lane_width) }
            }

            fn proved_encode(values: &[i64; 1024], lane_width: usize) -> u16 {
                unsafe { $encode(values, lane_width) }
            }

            fn proved_sum(values: &[i64; 1024], lane_width: usize) -> u64 {
                unsafe { $sum(values, lane_width) }
            }

            fn proved_decode(values: &[i64; 1024], lane_width: usize, times: usize, into: &mut [i64; 1024]) {
                assert!(unsafe { $decode(values, lane_width, times, into) }, "memory is there");
            }
        })*
    };
}

proved_coding! {
    [<U> ProvedCoding for For<U>] lane_kernels_for_size lane_kernels_for_encode lane_kernels_for_sum lane_kernels_for_decode;
    [<U> ProvedCoding for Delta<U>] lane_kernels_delta_size lane_kernels_delta_encode lane_kernels_delta_sum lane_kernels_delta_decode;
    [ProvedCoding for Runs] lane_kernels_runs_size lane_kernels_runs_encode lane_kernels_runs_sum lane_kernels_runs_decode;
    [ProvedCoding for Dict] lane_kernels_dict_size lane_kernels_dict_encode lane_kernels_dict_sum lane_kernels_dict_decode;
}
