// Stands in for serde: the names that the source imports, with what its one
// hand-written implementation calls.

pub use serde_derive::{Deserialize, Serialize};

pub trait Serialize {
    fn serialize<S: ser::Serializer>(&self, serializer: S) -> Result<S::Ok, S::Error>;
}

pub mod ser {
    pub trait Serializer: Sized {
        type Ok;
        type Error;
        type SerializeStruct: SerializeStruct<Ok = Self::Ok, Error = Self::Error>;
        fn serialize_struct(
            self,
            name: &'static str,
            len: usize,
        ) -> Result<Self::SerializeStruct, Self::Error>;
    }

    pub trait SerializeStruct {
        type Ok;
        type Error;
        fn serialize_field<T: ?Sized>(
            &mut self,
            key: &'static str,
            value: &T,
        ) -> Result<(), Self::Error>;
        fn end(self) -> Result<Self::Ok, Self::Error>;
    }
}
