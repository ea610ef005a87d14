//! How records are read from values of JSON and written as such.

use crate::json::Value;
use crate::{Error, Refusal};
use std::collections::BTreeMap;
use std::fmt;
use std::str::FromStr;

/// The number of elements of the base field.
pub const ORDER: u32 = (1 << 31) - 1;

/// An element of the challenge field: its three coefficients, each below `2^31 - 1`.
pub type Cubic = [u32; 3];

/// A digest of 32 bytes, such as a commitment. It is written as 64 hexadecimal digits, in lower
/// case, and parsed from digits in either case.
#[derive(Clone, Copy, PartialEq, Eq, Hash)]
pub struct Digest(pub [u8; 32]);

impl fmt::Display for Digest {
    fn fmt(&self, formatter: &mut fmt::Formatter<'_>) -> fmt::Result {
        self.0
            .iter()
            .try_for_each(|byte| write!(formatter, "{byte:02x}"))
    }
}

impl fmt::Debug for Digest {
    fn fmt(&self, formatter: &mut fmt::Formatter<'_>) -> fmt::Result {
        write!(formatter, "Digest({self})")
    }
}

impl AsRef<[u8]> for Digest {
    fn as_ref(&self) -> &[u8] {
        &self.0
    }
}

impl FromStr for Digest {
    type Err = Error;

    /// The digest that 64 hexadecimal digits stand for, or [`Refusal::BadHex`].
    fn from_str(digits: &str) -> Result<Digest, Error> {
        let wrong = Error::of_form(Refusal::BadHex);
        if digits.len() != 64 || !digits.bytes().all(|mark| mark.is_ascii_hexdigit()) {
            return Err(wrong);
        }
        let mut bytes = [0; 32];
        for (place, byte) in bytes.iter_mut().enumerate() {
            let pair = &digits[2 * place..2 * place + 2];
            *byte = u8::from_str_radix(pair, 16).map_err(|_| wrong.clone())?;
        }
        Ok(Digest(bytes))
    }
}

/// What has a form in JSON.
pub(crate) trait Form: Sized {
    /// What a value stands for.
    fn read(value: &Value) -> Result<Self, Error>;

    /// The value that stands for this.
    fn write(&self) -> Value;

    /// What a text stands for.
    fn read_text(text: &str) -> Result<Self, Error> {
        Self::read(&Value::read(text).ok_or(Error::of_form(Refusal::Json))?)
    }
}

/// A member of the object in a line that the library returned. The caller's input isn't at fault if
/// it can't be read.
pub(crate) fn member<T: Form>(line: &str, key: &str) -> Result<T, Refusal> {
    match Value::read(line) {
        Some(Value::Object(members)) => {
            let value = members.get(key).ok_or(Refusal::Unknown)?;
            T::read(value).map_err(|_| Refusal::Unknown)
        }
        _ => Err(Refusal::Unknown),
    }
}

/// The members of an object that has exactly these keys, or which key is missing or unknown. Each
/// key is listed with whether it is optional.
pub(crate) fn members<'a>(
    value: &'a Value,
    keys: &[(&str, bool)],
) -> Result<&'a BTreeMap<String, Value>, Error> {
    let Value::Object(members) = value else {
        return Err(Error::of_form(Refusal::WrongKind));
    };
    let is_missing = |(key, optional): &&(&str, bool)| !optional && !members.contains_key(*key);
    if let Some((key, _)) = keys.iter().find(is_missing) {
        return Err(Error::of_form(Refusal::MissingKey).under(key));
    }
    let is_unknown = |key: &&String| keys.iter().all(|(name, _)| name != key);
    match members.keys().find(is_unknown) {
        Some(key) => Err(Error::of_form(Refusal::UnknownKey).under(key)),
        None => Ok(members),
    }
}

/// The whole number that a value is. Where it needs more than 64 bits it is no whole number to the
/// library, which takes it for a float, as it does `-0`.
fn number(value: &Value) -> Result<u64, Error> {
    let wrong = Error::of_form(Refusal::WrongKind);
    let Value::Number(digits) = value else {
        return Err(wrong);
    };
    if digits.parse::<i64>().is_ok_and(|number| number < 0) {
        return Err(Error::of_form(Refusal::OutOfRange));
    }
    if digits.starts_with('-') {
        return Err(wrong);
    }
    digits.parse().map_err(|_| wrong)
}

impl Form for usize {
    fn read(value: &Value) -> Result<usize, Error> {
        usize::try_from(number(value)?).map_err(|_| Error::of_form(Refusal::OutOfRange))
    }

    fn write(&self) -> Value {
        Value::Number(self.to_string())
    }
}

// An element of the base field.
impl Form for u32 {
    fn read(value: &Value) -> Result<u32, Error> {
        let found = u32::try_from(number(value)?).ok();
        found
            .filter(|element| *element < ORDER)
            .ok_or(Error::of_form(Refusal::OutOfRange))
    }

    fn write(&self) -> Value {
        Value::Number(self.to_string())
    }
}

impl Form for Digest {
    fn read(value: &Value) -> Result<Digest, Error> {
        match value {
            Value::Text(digits) => digits.parse(),
            _ => Err(Error::of_form(Refusal::WrongKind)),
        }
    }

    fn write(&self) -> Value {
        Value::Text(self.to_string())
    }
}

impl<T: Form> Form for Vec<T> {
    fn read(value: &Value) -> Result<Vec<T>, Error> {
        let Value::Array(items) = value else {
            return Err(Error::of_form(Refusal::WrongKind));
        };
        let at = |(place, item)| T::read(item).map_err(|error| error.under(&format!("[{place}]")));
        items.iter().enumerate().map(at).collect()
    }

    fn write(&self) -> Value {
        Value::Array(self.iter().map(T::write).collect())
    }
}

impl Form for Cubic {
    fn read(value: &Value) -> Result<Cubic, Error> {
        let wrong = Error::of_form(Refusal::WrongKind);
        if !matches!(value, Value::Array(items) if items.len() == 3) {
            return Err(wrong);
        }
        Vec::read(value)?.try_into().map_err(|_| wrong)
    }

    fn write(&self) -> Value {
        Value::Array(self.iter().map(u32::write).collect())
    }
}

/// Declares structs with the form of an object that has their members.
macro_rules! records {
    ($(
        $(#[$doc:meta])*
        pub struct $name:ident {
            $($(#[$member_doc:meta])* pub $member:ident: $kind:ty,)*
        }
    )*) => {$(
        $(#[$doc])*
        #[derive(Clone, Debug, PartialEq, Eq, Hash)]
        pub struct $name {
            $($(#[$member_doc])* pub $member: $kind,)*
        }

        impl $crate::form::Form for $name {
            fn read(value: &$crate::json::Value) -> Result<$name, $crate::Error> {
                let keys = [$((stringify!($member), false)),*];
                let members = $crate::form::members(value, &keys)?;
                Ok($name {$(
                    $member: $crate::form::Form::read(&members[stringify!($member)])
                        .map_err(|error| error.under(stringify!($member)))?,
                )*})
            }

            fn write(&self) -> $crate::json::Value {
                $crate::json::Value::object([
                    $((stringify!($member), $crate::form::Form::write(&self.$member)),)*
                ])
            }
        }
    )*};
}

/// Gives types the calls by which their texts of JSON are read and written.
macro_rules! texts {
    ($($name:ident),*) => {$(
        impl $name {
            /// The value with this JSON text.
            ///
            /// # Errors
            ///
            /// The first fault of the text, with the path that leads to it.
            pub fn from_json(text: &str) -> Result<$name, $crate::Error> {
                $crate::form::Form::read_text(text)
            }

            /// The JSON text, compact and with ascending keys.
            pub fn to_json(&self) -> String {
                $crate::form::Form::write(self).text()
            }
        }
    )*};
}

pub(crate) use {records, texts};
