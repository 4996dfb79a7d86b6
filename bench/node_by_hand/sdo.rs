//! The SDO channels of the device.
use crate::device::{self, Key, Node, frame};

impl Node {
    fn write(&mut self, key: Key, bytes: &[u8]) -> Result<(), u32> {
        let place = self.find(key)?;
        let entry = &mut self.entries[place];
        match () {
            () if matches!(entry.access.as_str(), "ro" | "const") || key.0 & 0xFF80 == 0x1200 => {
                Err(0x06010002)
            }
            () if bytes.len() > entry.capacity => Err(0x06070012),
            () if bytes.len() < entry.width => Err(0x06070013),
            () if !entry.is_within(bytes) => Err(0x06090031),
            () => {
                entry.bytes.clear();
                entry.bytes.extend_from_slice(bytes);
                self.written(key);
                Ok(())
            }
        }
    }

    fn find(&self, key: Key) -> Result<usize, u32> {
        match self.entries.binary_search_by_key(&key, |entry| entry.key) {
            Ok(place) => Ok(place),
            Err(place) => {
                let near = [place.wrapping_sub(1), place];
                let has = near
                    .iter()
                    .any(|place| self.entries.get(*place).is_some_and(|entry| entry.key.0 == key.0));
                Err(if has { 0x06090011 } else { 0x06020000 })
            }
        }
    }

    fn readable(&self, key: Key) -> Result<usize, u32> {
        let place = self.find(key)?;
        if self.entries[place].access == "wo" {
            return Err(0x06010001);
        }
        if key.0 == 0x1003 && key.1 > 0 && u64::from(key.1) > self.get(0x1003, 0) {
            return Err(0x08000024);
        }
        Ok(place)
    }

    pub fn request(&mut self, number: usize, data: &[u8; 8]) {
        let asked = (u16::from_le_bytes([data[1], data[2]]), data[3]);
        let answer = self.channels[number].answer;
        let mut reply = [0; 8];
        let outcome = match data[0] >> 5 {
            0 => self.segment(number, data, &mut reply),
            1 => self
                .begin_download(number, asked, data, &mut reply)
                .map_err(|code| (asked, code)),
            2 => self
                .begin_upload(number, asked, &mut reply)
                .map_err(|code| (asked, code)),
            3 => self.next_segment(number, data[0], &mut reply),
            4 => {
                self.channels[number].open = None;
                return;
            }
            _ => Err((self.open_key(number), 0x05040001)),
        };
        if let Err((key, code)) = outcome {
            self.channels[number].open = None;
            reply = [0x80, key.0 as u8, (key.0 >> 8) as u8, key.1, 0, 0, 0, 0];
            reply[4..].copy_from_slice(&u32::to_le_bytes(code));
        }
        if self.channels[number].open.is_some() {
            self.channels[number].left = self.time;
        }
        self.outbox.push(frame(answer, &reply));
    }

    fn open_key(&self, number: usize) -> Key {
        if self.channels[number].open.is_some() {
            self.channels[number].key
        } else {
            (0, 0)
        }
    }

    fn begin_download(
        &mut self,
        number: usize,
        key: Key,
        data: &[u8; 8],
        reply: &mut [u8; 8],
    ) -> Result<(), u32> {
        self.channels[number].open = None;
        let place = self.find(key)?;
        reply[..4].copy_from_slice(&[0x60, data[1], data[2], data[3]]);
        if data[0] & 2 != 0 {
            let count = if data[0] & 1 != 0 {
                4 - usize::from(data[0] >> 2 & 3)
            } else {
                self.entries[place].capacity.min(4)
            };
            return self.write(key, &data[4..4 + count]);
        }
        let entry = &self.entries[place];
        let size = (data[0] & 1 != 0).then(|| device::number(&data[4..]) as usize);
        match size {
            _ if matches!(entry.access.as_str(), "ro" | "const") => return Err(0x06010002),
            Some(size) if size > entry.capacity => return Err(0x06070012),
            Some(size) if size < entry.width => return Err(0x06070013),
            _ => {}
        }
        let channel = &mut self.channels[number];
        (channel.open, channel.key, channel.toggle, channel.size) = (Some(true), key, false, size);
        channel.held.clear();
        Ok(())
    }

    fn segment(&mut self, number: usize, data: &[u8; 8], reply: &mut [u8; 8]) -> Result<(), (Key, u32)> {
        let key = self.open_key(number);
        let channel = &mut self.channels[number];
        let toggle = data[0] & 0x10 != 0;
        if channel.open != Some(true) {
            return Err((key, 0x05040001));
        }
        if toggle != channel.toggle {
            return Err((key, 0x05030000));
        }
        let count = 7 - usize::from(data[0] >> 1 & 7);
        let place = self
            .entries
            .binary_search_by_key(&key, |entry| entry.key)
            .map_err(|_| (key, 0x06020000))?;
        if channel.held.len() + count > self.entries[place].capacity {
            return Err((key, 0x06070012));
        }
        channel.held.extend_from_slice(&data[1..1 + count]);
        channel.toggle = !toggle;
        reply[0] = 0x20 | data[0] & 0x10;
        if data[0] & 1 != 0 {
            channel.open = None;
            let held = std::mem::take(&mut channel.held);
            let outcome = self.write(key, &held);
            self.channels[number].held = held;
            outcome.map_err(|code| (key, code))?;
        }
        Ok(())
    }

    fn begin_upload(&mut self, number: usize, key: Key, reply: &mut [u8; 8]) -> Result<(), u32> {
        self.channels[number].open = None;
        let place = self.readable(key)?;
        let bytes = &self.entries[place].bytes;
        reply[1..4].copy_from_slice(&[key.0 as u8, (key.0 >> 8) as u8, key.1]);
        if (1..=4).contains(&bytes.len()) {
            reply[0] = 0x43 | ((4 - bytes.len()) << 2) as u8;
            reply[4..4 + bytes.len()].copy_from_slice(bytes);
            return Ok(());
        }
        reply[0] = 0x41;
        reply[4..].copy_from_slice(&(bytes.len() as u32).to_le_bytes());
        let channel = &mut self.channels[number];
        (channel.open, channel.key, channel.toggle, channel.position) = (Some(false), key, false, 0);
        channel.held.clear();
        channel.held.extend_from_slice(bytes);
        Ok(())
    }

    fn next_segment(&mut self, number: usize, first: u8, reply: &mut [u8; 8]) -> Result<(), (Key, u32)> {
        let key = self.open_key(number);
        let channel = &mut self.channels[number];
        let toggle = first & 0x10 != 0;
        if channel.open != Some(false) {
            return Err((key, 0x05040001));
        }
        if toggle != channel.toggle {
            return Err((key, 0x05030000));
        }
        let rest = &channel.held[channel.position..];
        let count = rest.len().min(7);
        reply[0] = first & 0x10 | ((7 - count) << 1) as u8 | u8::from(rest.len() <= 7);
        reply[1..1 + count].copy_from_slice(&rest[..count]);
        channel.position += count;
        channel.toggle = !toggle;
        if channel.position == channel.held.len() {
            channel.open = None;
        }
        Ok(())
    }
}
