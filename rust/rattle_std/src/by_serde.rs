//! Texts and vectors as serde sees them.
use crate::{String, Vec, heap};
use serde::{Deserialize, Deserializer, Serialize, Serializer};

impl Serialize for String { fn serialize<S: Serializer>(&self, to: S) -> Result<S::Ok, S::Error> { to.serialize_str(&self.0) } }
impl<T: Serialize> Serialize for Vec<T> { fn serialize<S: Serializer>(&self, to: S) -> Result<S::Ok, S::Error> { to.collect_seq(&self.0) } }

impl<'de> Deserialize<'de> for String {
    fn deserialize<D: Deserializer<'de>>(from: D) -> Result<String, D::Error> { heap::string::String::deserialize(from).map(String) }
}

impl<'de, T: Deserialize<'de>> Deserialize<'de> for Vec<T> {
    fn deserialize<D: Deserializer<'de>>(from: D) -> Result<Vec<T>, D::Error> { heap::vec::Vec::deserialize(from).map(Vec) }
}

impl<T> Default for Vec<T> { fn default() -> Vec<T> { Vec(heap::vec::Vec::new()) } }
