//! Stands for serde: just enough of its traits for time_types.rs to type-check.
pub use serde_derive::{Deserialize, Serialize};

pub trait Serializer: Sized {
    type Ok;
    type Error;
    fn serialize_f64(self, v: f64) -> Result<Self::Ok, Self::Error>;
}
pub trait Serialize {
    fn serialize<S: Serializer>(&self, serializer: S) -> Result<S::Ok, S::Error>;
}
impl Serialize for f64 {
    fn serialize<S: Serializer>(&self, serializer: S) -> Result<S::Ok, S::Error> {
        serializer.serialize_f64(*self)
    }
}
pub trait Deserializer<'de>: Sized {
    type Error: de::Error;
    fn get_f64(self) -> Result<f64, Self::Error>;
    fn get_u32(self) -> Result<u32, Self::Error>;
}
pub trait Deserialize<'de>: Sized {
    fn deserialize<D: Deserializer<'de>>(deserializer: D) -> Result<Self, D::Error>;
}
impl<'de> Deserialize<'de> for f64 {
    fn deserialize<D: Deserializer<'de>>(deserializer: D) -> Result<Self, D::Error> {
        deserializer.get_f64()
    }
}
impl<'de> Deserialize<'de> for u32 {
    fn deserialize<D: Deserializer<'de>>(deserializer: D) -> Result<Self, D::Error> {
        deserializer.get_u32()
    }
}
pub mod de {
    pub enum Unexpected {
        Float(f64),
    }
    pub trait Expected {}
    impl Expected for &str {}
    pub trait Error: Sized {
        fn invalid_value(unexp: Unexpected, exp: &dyn Expected) -> Self;
    }
}
