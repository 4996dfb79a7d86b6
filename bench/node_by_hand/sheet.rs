//! The entries of a data sheet without faults.
use crate::device::{Entry, Key};
use std::collections::HashMap;

// of a signed type of so many bits, or of 0 bits for the others
fn numeral(text: &str, node_id: u8, bits: u32) -> i64 {
    let text = text.to_uppercase().replace([' ', '\t'], "");
    text.split('+')
        .map(|part| match part.strip_prefix("0X") {
            Some(digits) => {
                let value = i64::from_str_radix(digits, 16).expect("a numeral");
                if bits > 0 && value >> (bits - 1) != 0 {
                    value - (1 << bits)
                } else {
                    value
                }
            }
            None if part == "$NODEID" => i64::from(node_id),
            None => part.parse().expect("a numeral"),
        })
        .sum()
}

fn entry(key: Key, section: &HashMap<String, String>, node_id: u8) -> Option<Entry> {
    let get = |name: &str| section.get(name).filter(|text| !text.is_empty());
    let number = |name: &str, bits: u32| get(name).map(|text| numeral(text, node_id, bits));
    let domain = number("OBJECTTYPE", 0) == Some(2);
    let code = number("DATATYPE", 0).or(domain.then_some(15))?;
    let (width, signed) = match code {
        1 | 5 => (1, false),
        2 => (1, true),
        3 => (2, true),
        4 => (4, true),
        6 => (2, false),
        7 => (4, false),
        9 | 10 | 15 => (0, false),
        _ => panic!("data type {code}"),
    };
    let bits = 8 * width as u32;
    let sign = if signed { bits } else { 0 };
    let (least, most) = match (width, signed) {
        (0, _) => (0, 0),
        (_, true) => (-(1i64 << (bits - 1)), (1i64 << (bits - 1)) - 1),
        _ => (0, if code == 1 { 1 } else { (1i64 << bits) - 1 }),
    };
    let bytes = match code {
        9 => get("DEFAULTVALUE").map_or(Vec::new(), |text| text.clone().into_bytes()),
        10 | 15 => Vec::new(),
        _ => number("DEFAULTVALUE", sign).unwrap_or(0).to_le_bytes()[..width].to_vec(),
    };
    let capacity = match code {
        9 | 10 => bytes.len().max(16),
        15 => 889,
        _ => width,
    };
    let access = get("ACCESSTYPE").map_or("rw".to_owned(), |text| text.to_lowercase());
    let low = number("LOWLIMIT", sign).unwrap_or(least);
    let high = number("HIGHLIMIT", sign).unwrap_or(most);
    Some(Entry {
        key,
        access,
        width,
        signed,
        low,
        high,
        capacity,
        bytes,
    })
}

pub fn entries(text: &str, node_id: u8) -> Vec<Entry> {
    let mut sections: HashMap<Key, HashMap<String, String>> = HashMap::new();
    let mut current = None;
    for line in text.lines().map(str::trim) {
        if let Some(name) = line.strip_prefix('[') {
            let name = name.split(']').next().unwrap_or("").to_lowercase();
            let (object, sub) = name.split_once("sub").unwrap_or((&name, "0"));
            current = u16::from_str_radix(object, 16)
                .ok()
                .zip(u8::from_str_radix(sub, 16).ok());
        } else if let Some((name, value)) = line.split_once('=')
            && let Some(key) = current
            && !line.starts_with(';')
        {
            sections
                .entry(key)
                .or_default()
                .insert(name.trim().to_uppercase(), value.trim().to_owned());
        }
    }
    let mut entries: Vec<Entry> = sections
        .iter()
        .filter_map(|(key, section)| entry(*key, section, node_id))
        .collect();
    entries.sort_by_key(|entry| entry.key);
    entries
}
