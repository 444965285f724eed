//! Stands for server.rs, which lib.rs only names.
pub struct FilterAction;
pub struct FilterList;
pub struct IpSubnet;
pub struct Server;
pub struct ServerAction;
pub struct ServerConfig;
pub struct ServerReason;
pub struct ServerResponse;
pub struct ServerStatHandler;
pub struct SubnetParseError;
