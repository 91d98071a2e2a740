//! Stand-in, not part of audiofp: the module of the fingerprint types. `Wang`
//! and `Panako` stand in their own vendored files; the front end that they
//! call is declared and never run.

mod panako;
mod wang;

pub use panako::{Panako, PanakoConfig, PanakoFingerprint, PanakoHash, StreamingPanako};
pub use wang::{StreamingWang, Wang, WangConfig, WangFingerprint, WangHash};

#[derive(Clone, Debug)]
pub struct HaitsmaFingerprint {
    pub frames: alloc::vec::Vec<u32>,
    pub frames_per_sec: f32,
}

macro_rules! sanitize_cfg {
    ($cfg:ident) => {
        let _ = &mut $cfg;
    };
}
pub(crate) use sanitize_cfg;

pub(crate) mod landmark_common {
    use crate::dsp::peaks::Peak;
    use crate::{Result, SampleRate};
    use alloc::vec::Vec;

    pub const SR: u32 = 8_000;
    pub const N_FFT: usize = 1_024;
    pub const HOP: usize = 128;
    pub const FRAMES_PER_SEC: f32 = 62.5;
    pub const MIN_SAMPLES: usize = 0;
    pub const PEAK_NEIGHBOURHOOD: usize = 0;
    pub const LOG_FLOOR_POWER: f32 = 0.0;

    macro_rules! peak_cfg {
        ($cfg:expr) => {{
            let _ = &$cfg;
            unimplemented!()
        }};
    }
    pub(crate) use peak_cfg;

    pub struct FrontEnd;

    impl FrontEnd {
        pub fn new(_: usize, _: usize, _: usize, _: f32, _: usize) -> Self {
            unimplemented!()
        }

        pub fn extract_hashes<H, K: Ord>(
            &mut self,
            _: &[f32],
            _: SampleRate,
            _: Option<usize>,
            _: impl FnMut(f32),
            _: impl FnMut(&[Peak]) -> Result<Vec<H>>,
            _: impl FnMut(&H) -> K,
        ) -> Result<Vec<H>> {
            unimplemented!()
        }
    }

    pub fn lookahead_frames(_: u16) -> u32 {
        unimplemented!()
    }
}

pub(crate) mod stream {
    use crate::TimestampMs;
    use crate::dsp::peaks::Peak;
    use alloc::vec::Vec;

    pub const TARGETS_POOL_PREFILL: usize = 0;

    pub enum Zone {
        Inclusive,
        Strict,
    }

    pub enum Step<'a> {
        Push(&'a [f32]),
        Flush,
        FlushComplete,
    }

    #[derive(Copy, Clone)]
    pub struct PeakCfg {
        pub fan_out: usize,
    }

    pub struct PendingAnchor {
        pub peak: Peak,
        pub targets: Vec<Peak>,
    }

    pub struct StreamCore<H>(core::marker::PhantomData<H>);

    impl<H> StreamCore<H> {
        #[allow(clippy::too_many_arguments)]
        pub fn new(
            _: usize,
            _: usize,
            _: u32,
            _: usize,
            _: f32,
            _: Zone,
            _: usize,
            _: usize,
        ) -> Self {
            unimplemented!()
        }

        pub fn reset(&mut self) {
            unimplemented!()
        }

        pub fn run_collect(
            &mut self,
            _: Step<'_>,
            _: PeakCfg,
            _: impl FnMut(&mut Vec<Peak>, Peak, PeakCfg),
            _: impl FnMut(PendingAnchor, PeakCfg, &mut Vec<(TimestampMs, H)>) -> Vec<Peak>,
        ) -> Vec<(TimestampMs, H)> {
            unimplemented!()
        }

        pub fn run_with(
            &mut self,
            _: Step<'_>,
            _: PeakCfg,
            _: impl FnMut(&mut Vec<Peak>, Peak, PeakCfg),
            _: impl FnMut(PendingAnchor, PeakCfg, &mut Vec<(TimestampMs, H)>) -> Vec<Peak>,
            _: impl FnMut(TimestampMs, &H),
        ) -> usize {
            unimplemented!()
        }
    }
}
