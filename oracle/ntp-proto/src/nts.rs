//! Stands for nts.rs, which lib.rs only names.
pub struct KeyExchangeClient;
pub struct KeyExchangeResult;
pub struct KeyExchangeServer;
pub struct NtsClientConfig;
pub struct NtsError;
pub struct NtsServerConfig;
