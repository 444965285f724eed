//! Stands for algorithm.rs, which is not published: the traits that source.rs and system.rs lean on.
use crate::{
    clock::NtpClock,
    config::{SourceConfig, SynchronizationConfig},
    source::Measurement,
    system::TimeSnapshot,
    time_types::{NtpDuration, PollInterval},
};
use std::{fmt::Debug, time::Duration};

#[derive(Debug, Clone)]
pub struct StateUpdate<SourceId, ControllerMessage> {
    pub source_message: Option<ControllerMessage>,
    pub time_snapshot: Option<TimeSnapshot>,
    pub used_sources: Option<Vec<SourceId>>,
    pub next_update: Option<Duration>,
}

#[derive(Debug, Clone, Copy, Default)]
pub struct ObservableSourceTimedata;

pub trait SourceController: Sized + Send + 'static {
    type ControllerMessage: Debug + Clone + Send + 'static;
    type SourceMessage: Debug + Clone + Send + 'static;
    type MeasurementDelay: Debug + Copy + Clone;
    fn handle_message(&mut self, message: Self::ControllerMessage);
    fn handle_measurement(&mut self, measurement: Measurement<Self::MeasurementDelay>) -> Option<Self::SourceMessage>;
    fn desired_poll_interval(&self) -> PollInterval;
    fn observe(&self) -> ObservableSourceTimedata;
}

pub trait TimeSyncController: Sized + Send + 'static {
    type Clock: NtpClock;
    type SourceId;
    type AlgorithmConfig;
    type ControllerMessage: Debug + Clone + Send + 'static;
    type SourceMessage: Debug + Clone + Send + 'static;
    type NtpSourceController: SourceController<
            ControllerMessage = Self::ControllerMessage,
            SourceMessage = Self::SourceMessage,
            MeasurementDelay = NtpDuration,
        >;
    type OneWaySourceController: SourceController<
            ControllerMessage = Self::ControllerMessage,
            SourceMessage = Self::SourceMessage,
            MeasurementDelay = (),
        >;
    fn new(
        clock: Self::Clock,
        synchronization_config: SynchronizationConfig,
        algorithm_config: Self::AlgorithmConfig,
    ) -> Result<Self, <Self::Clock as NtpClock>::Error>;
    fn take_control(&mut self) -> Result<(), <Self::Clock as NtpClock>::Error>;
    fn add_source(&mut self, id: Self::SourceId, config: SourceConfig) -> Self::NtpSourceController;
    fn add_one_way_source(
        &mut self,
        id: Self::SourceId,
        config: SourceConfig,
        noise: f64,
        accuracy: f64,
        period: Option<f64>,
    ) -> Self::OneWaySourceController;
    fn remove_source(&mut self, id: Self::SourceId);
    fn source_update(&mut self, id: Self::SourceId, usable: bool);
    fn source_message(
        &mut self,
        id: Self::SourceId,
        message: Self::SourceMessage,
    ) -> StateUpdate<Self::SourceId, Self::ControllerMessage>;
    fn time_update(&mut self) -> StateUpdate<Self::SourceId, Self::ControllerMessage>;
}

// Only named by lib.rs.
pub struct AlgorithmConfig;
pub struct KalmanClockController;
pub struct KalmanControllerMessage;
pub struct KalmanSourceController;
pub struct KalmanSourceMessage;
pub struct TwoWayKalmanSourceController;
