// Stands in for serde_json: a property map that holds plain values. Texts are
// neither read nor written.

use std::collections::BTreeMap;
use std::fmt;

pub type Map<K, V> = BTreeMap<K, V>;

#[derive(Debug, Clone, PartialEq)]
pub enum Value {
    Null,
    Bool(bool),
    Number(f64),
    String(String),
}

impl Value {
    pub fn get(&self, _key: &str) -> Option<&Value> {
        None
    }

    pub fn as_f64(&self) -> Option<f64> {
        match self {
            Value::Number(v) => Some(*v),
            _ => None,
        }
    }

    pub fn as_bool(&self) -> Option<bool> {
        match self {
            Value::Bool(v) => Some(*v),
            _ => None,
        }
    }

    pub fn as_str(&self) -> Option<&str> {
        match self {
            Value::String(v) => Some(v),
            _ => None,
        }
    }
}

pub trait Plain {
    fn plain(&self) -> Value;
}

impl Plain for bool {
    fn plain(&self) -> Value {
        Value::Bool(*self)
    }
}

impl Plain for f64 {
    fn plain(&self) -> Value {
        Value::Number(*self)
    }
}

impl Plain for u32 {
    fn plain(&self) -> Value {
        Value::Number(f64::from(*self))
    }
}

impl Plain for usize {
    fn plain(&self) -> Value {
        Value::Number(*self as f64)
    }
}

impl Plain for str {
    fn plain(&self) -> Value {
        Value::String(self.to_string())
    }
}

impl Plain for String {
    fn plain(&self) -> Value {
        Value::String(self.clone())
    }
}

impl Plain for Vec<String> {
    fn plain(&self) -> Value {
        Value::Null
    }
}

impl<T: Plain + ?Sized> Plain for &T {
    fn plain(&self) -> Value {
        (**self).plain()
    }
}

#[macro_export]
macro_rules! json {
    ({ $($key:literal : $value:expr),* $(,)? }) => {{
        $(let _ = &$value;)*
        $crate::Value::Null
    }};
    ($value:expr) => {
        $crate::Plain::plain(&$value)
    };
}

#[derive(Debug)]
pub struct Error;

impl fmt::Display for Error {
    fn fmt(&self, f: &mut fmt::Formatter<'_>) -> fmt::Result {
        f.write_str("JSON texts are left out")
    }
}

pub fn from_str<T>(_text: &str) -> Result<T, Error> {
    Err(Error)
}

pub fn to_string<T>(_value: &T) -> Result<String, Error> {
    Err(Error)
}
