//! Encodes and decodes the subset of CBOR that CTAP2 requests and responses use (CTAP 2.1, section 8).

/// A CBOR data item. The entries of a `Map` must be in canonical order (CTAP 2.1, section 8), since `encode` does not
/// sort them.
#[derive(Clone, Debug, PartialEq, Eq)]
pub enum Item {
    Number(i64),
    Bytes(Vec<u8>),
    Text(String),
    Array(Vec<Item>),
    Map(Vec<(Item, Item)>),
    Bool(bool),
}

impl Item {
    pub fn from_text(text: &str) -> Item {
        Item::Text(text.into())
    }

    pub fn from_entries<const N: usize>(entries: [(&str, Item); N]) -> Item {
        Item::Map(entries.into_iter().map(|(key, value)| (Item::from_text(key), value)).collect())
    }

    /// Returns the value of a key, or `None` if this item is not a map or has no such key.
    pub fn get(&self, key: &Item) -> Option<&Item> {
        match self {
            Item::Map(entries) => entries.iter().find(|entry| entry.0 == *key).map(|entry| &entry.1),
            _ => None,
        }
    }

    /// Returns the value of a key if it is a byte string, or `None` otherwise.
    pub fn get_bytes(&self, key: &Item) -> Option<&[u8]> {
        match self.get(key) {
            Some(Item::Bytes(bytes)) => Some(bytes),
            _ => None,
        }
    }

    pub fn encode(&self, to: &mut Vec<u8>) {
        match self {
            Item::Number(number) if *number < 0 => write_head(1, (-1 - number) as u64, to),
            Item::Number(number) => write_head(0, *number as u64, to),
            Item::Bytes(bytes) => {
                write_head(2, bytes.len() as u64, to);
                to.extend_from_slice(bytes);
            }
            Item::Text(text) => {
                write_head(3, text.len() as u64, to);
                to.extend_from_slice(text.as_bytes());
            }
            Item::Array(items) => {
                write_head(4, items.len() as u64, to);
                items.iter().for_each(|item| item.encode(to));
            }
            Item::Map(entries) => {
                write_head(5, entries.len() as u64, to);
                for (key, value) in entries {
                    key.encode(to);
                    value.encode(to);
                }
            }
            Item::Bool(value) => to.push(if *value { 0xf5 } else { 0xf4 }),
        }
    }

    /// Decodes bytes that must be one item. Returns `None` if they are not valid, or if more bytes follow.
    pub fn decode(mut from: &[u8]) -> Option<Item> {
        let item = read_item(&mut from)?;
        from.is_empty().then_some(item)
    }
}

/// Writes the head of an item: its major type, and its argument (RFC 8949, section 3), which must be below 65536.
fn write_head(major: u8, argument: u64, to: &mut Vec<u8>) {
    if argument < 24 {
        to.push((major << 5) | argument as u8);
    } else if argument < 0x100 {
        to.extend([(major << 5) | 24, argument as u8]);
    } else {
        to.push((major << 5) | 25);
        to.extend((argument as u16).to_be_bytes());
    }
}

fn take_bytes<'a>(from: &mut &'a [u8], len: usize) -> Option<&'a [u8]> {
    let (taken, rest) = (from.get(..len)?, from.get(len..)?);
    *from = rest;
    Some(taken)
}

fn read_item(from: &mut &[u8]) -> Option<Item> {
    let first = take_bytes(from, 1)?[0];
    let argument = match first & 31 {
        short @ 0..=23 => u64::from(short),
        long @ 24..=26 => take_bytes(from, 1 << (long - 24))?.iter().fold(0, |sum, byte| (sum << 8) | u64::from(*byte)),
        _ => return None,
    };
    let len = argument as usize;
    Some(match first >> 5 {
        0 => Item::Number(argument as i64),
        1 => Item::Number(-1 - argument as i64),
        2 => Item::Bytes(take_bytes(from, len)?.to_vec()),
        3 => Item::Text(String::from_utf8(take_bytes(from, len)?.to_vec()).ok()?),
        4 => Item::Array((0..len).map(|_| read_item(from)).collect::<Option<_>>()?),
        5 => Item::Map((0..len).map(|_| Some((read_item(from)?, read_item(from)?))).collect::<Option<_>>()?),
        7 => Item::Bool(argument == 21),
        _ => return None,
    })
}
