//! Stand-in, not part of audiofp: the crate root that the vendored files are
//! compiled under. What it declares are the names that they import; neither
//! `WangIndex` nor `PanakoIndex` runs any of it.

// The 1:1 matchers, the extractors and the Haitsma index lie idle here.
#![allow(dead_code)]

extern crate alloc;

use alloc::vec::Vec;

pub mod classical;
pub mod matching;

/// The reference's private functions; see `matching/haitsma.rs`.
pub use matching::HaitsmaMatcher as Reach;

/// The indexes whose content can be reached; see `matching/content.rs`.
pub mod open {
    pub type WangIndex = <super::Reach as super::Open>::WangIndex;
    pub type PanakoIndex = <super::Reach as super::Open>::PanakoIndex;
    pub type Content<P> = <super::Reach as super::Open>::Content<P>;
}

/// `matching` keeps its modules to itself; types go out by this trait.
pub trait Open {
    type WangIndex;
    type PanakoIndex;
    type Content<P>;
}

pub(crate) mod dsp {
    pub mod peaks {
        #[derive(Copy, Clone, Debug)]
        pub struct Peak {
            pub t_frame: u32,
            pub f_bin: u16,
            pub mag: f32,
        }
    }
}

#[derive(Debug)]
pub enum AfpError {
    InputTooLarge { limit: usize, provided: usize },
}

pub type Result<T> = core::result::Result<T, AfpError>;

#[derive(Copy, Clone, Debug)]
pub struct SampleRate(u32);

impl SampleRate {
    pub fn new(rate: u32) -> Option<Self> {
        (rate != 0).then_some(Self(rate))
    }
}

#[derive(Copy, Clone, Debug)]
pub struct TimestampMs(pub u64);

pub trait Fingerprinter {
    type Output;
    type Config;

    fn name(&self) -> &'static str;
    fn config(&self) -> &Self::Config;
    fn required_sample_rate(&self) -> SampleRate;
    fn min_samples(&self) -> usize;
    fn extract(&mut self, samples: &[f32], rate: SampleRate) -> Result<Self::Output>;
}

pub trait StreamingFingerprinter {
    type Frame;

    fn required_sample_rate(&self) -> u32;
    fn push(&mut self, samples: &[f32]) -> Result<Vec<(TimestampMs, Self::Frame)>>;
    fn push_with<F>(&mut self, samples: &[f32], callback: F) -> Result<usize>
    where
        F: FnMut(TimestampMs, &Self::Frame);
    fn flush(&mut self) -> Result<Vec<(TimestampMs, Self::Frame)>>;
    fn flush_with<F>(&mut self, callback: F) -> Result<usize>
    where
        F: FnMut(TimestampMs, &Self::Frame);
    fn latency_ms(&self) -> u32;
}

pub trait ZeroAllocStreaming: StreamingFingerprinter {}
