//! Stands for keyset.rs: the side of the server, which a client never reaches.
pub struct DecodedServerCookie(pub Box<dyn crate::packet::Cipher>);
impl std::fmt::Debug for DecodedServerCookie {
    fn fmt(&self, f: &mut std::fmt::Formatter<'_>) -> std::fmt::Result {
        f.write_str("DecodedServerCookie")
    }
}
pub struct KeySet;
impl KeySet {
    pub fn encode_cookie(&self, _cookie: &DecodedServerCookie) -> Vec<u8> {
        unimplemented!("server side")
    }
}
pub struct KeySetProvider;
