//! Stands for config.rs: the settings that source.rs and system.rs read.
use crate::{
    identifiers::ReferenceId,
    time_types::{NtpDuration, PollIntervalLimits},
};
#[derive(Debug, Copy, Clone, Default)]
pub struct SourceConfig {
    pub poll_interval_limits: PollIntervalLimits,
}
#[derive(Debug, Copy, Clone)]
pub struct ConfigReferenceId(pub ReferenceId);
impl ConfigReferenceId {
    pub fn to_reference_id(self) -> ReferenceId {
        self.0
    }
}
#[derive(Debug, Copy, Clone)]
pub struct SynchronizationConfig {
    pub local_stratum: u8,
    pub reference_id: ConfigReferenceId,
    pub accumulated_step_panic_threshold: Option<NtpDuration>,
}
pub struct StepThreshold;
