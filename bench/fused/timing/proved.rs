//! The proved kernels, as the Rattle library exports them: each makes so many calls over one vector in coding 0 to 3, with the
//! masks by turns, and mixes what they answer. A contract also requires that the values fit the lanes, which the timed data does.
use crate::mixed::Words;

unsafe extern "C" {
    fn fused_times_sum(values: &[i64; 1024], lane_width: usize, coding: usize, masks: &[Words; 2], times: usize) -> u64;
    fn fused_times_min(values: &[i64; 1024], lane_width: usize, coding: usize, masks: &[Words; 2], times: usize) -> u64;
    fn fused_times_max(values: &[i64; 1024], lane_width: usize, coding: usize, masks: &[Words; 2], times: usize) -> u64;
    fn fused_times_compare(values: &[i64; 1024], lane_width: usize, coding: usize, masks: &[Words; 2], literal: i64, times: usize) -> u64;
    fn fused_times_range(values: &[i64; 1024], lane_width: usize, coding: usize, masks: &[Words; 2], low: i64, high: i64, times: usize) -> u64;
    fn fused_times_decode(values: &[i64; 1024], lane_width: usize, coding: usize, masks: &[Words; 2], into: &mut [i64; 1024], times: usize) -> u64;
    fn fused_times_columns(values: &[i64; 1024], others: &[i64; 1024], lane_width: usize, coding: usize, masks: &[Words; 2], times: usize) -> u64;
}

/// A vector as it is given to the proved kernels.
pub struct Given<'a> {
    pub values: &'a [i64; 1024],
    pub lane_width: usize,
    pub coding: usize,
    pub masks: &'a [Words; 2],
}

impl Given<'_> {
    pub fn sum(&self, times: usize) -> u64 {
        unsafe { fused_times_sum(self.values, self.lane_width, self.coding, self.masks, times) }
    }

    pub fn min(&self, times: usize) -> u64 {
        unsafe { fused_times_min(self.values, self.lane_width, self.coding, self.masks, times) }
    }

    pub fn max(&self, times: usize) -> u64 {
        unsafe { fused_times_max(self.values, self.lane_width, self.coding, self.masks, times) }
    }

    pub fn compare(&self, literal: i64, times: usize) -> u64 {
        unsafe { fused_times_compare(self.values, self.lane_width, self.coding, self.masks, literal, times) }
    }

    pub fn range(&self, low: i64, high: i64, times: usize) -> u64 {
        unsafe { fused_times_range(self.values, self.lane_width, self.coding, self.masks, low, high, times) }
    }

    pub fn decode(&self, into: &mut [i64; 1024], times: usize) -> u64 {
        unsafe { fused_times_decode(self.values, self.lane_width, self.coding, self.masks, into, times) }
    }
    pub fn compare_columns(&self, others: &[i64; 1024], times: usize) -> u64 {
        unsafe { fused_times_columns(self.values, others, self.lane_width, self.coding, self.masks, times) }
    }
}
