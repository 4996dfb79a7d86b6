//! A device as one writes it by hand: the dictionary is a sorted list, and each PDO keeps its settings and where its entries
//! are. It has no block transfers, and no rules on what may be written into 1000h to 1FFFh.

pub type Key = (u16, u8);
pub type Frame = (u16, [u8; 8], usize);

const PRE_OPERATIONAL: u8 = 127;
const OPERATIONAL: u8 = 5;
const STOPPED: u8 = 4;

pub fn frame(id: u16, data: &[u8]) -> Frame {
    let mut bytes = [0; 8];
    bytes[..data.len()].copy_from_slice(data);
    (id, bytes, data.len())
}

pub struct Entry {
    pub key: Key,
    pub access: String,
    pub width: usize,
    pub signed: bool,
    pub low: i64,
    pub high: i64,
    pub capacity: usize,
    pub bytes: Vec<u8>,
}

impl Entry {
    pub fn is_within(&self, bytes: &[u8]) -> bool {
        if self.width == 0 || self.width == 8 {
            return true;
        }
        let value = number(bytes);
        let shift = 64 - 8 * self.width;
        let value = if self.signed {
            (value << shift) as i64 >> shift
        } else {
            value as i64
        };
        self.low <= value && value <= self.high
    }
}

pub fn number(bytes: &[u8]) -> u64 {
    bytes
        .iter()
        .rev()
        .fold(0, |sum, byte| sum << 8 | u64::from(*byte))
}

#[derive(Default)]
pub struct Pdo {
    pub number: u16,
    pub active: bool,
    pub id: u16,
    pub kind: u8,
    pub inhibit: u16,
    pub event: u16,
    pub map: Vec<(usize, usize)>, // place of the entry, width
    pub size: usize,
    pub slot: Option<([u8; 8], usize)>,
    pub count: u8,
    pub asked: bool,
    pub inhibit_left: u16,
    pub event_left: u16,
}

#[derive(Default)]
pub struct Channel {
    pub answer: u16,
    pub key: Key,
    pub open: Option<bool>, // a download, or else an upload
    pub toggle: bool,
    pub size: Option<usize>,
    pub held: Vec<u8>,
    pub position: usize,
    pub left: u16,
}

pub struct Consumer {
    pub sub: u8,
    pub node: u8,
    pub time: u16,
    pub left: u16,
}

#[derive(Clone, Copy)]
pub enum Handler {
    Nobody,
    Nmt,
    Sync,
    Channel(usize),
    Rpdo(usize),
    Heartbeat(u8),
}

pub struct Node {
    pub node_id: u8,
    pub entries: Vec<Entry>,
    pub state: u8,
    pub time: u16,
    pub handlers: Vec<Handler>,
    pub channels: Vec<Channel>,
    pub rpdos: Vec<Pdo>,
    pub tpdos: Vec<Pdo>,
    pub consumers: Vec<Consumer>,
    pub queue: std::collections::VecDeque<[u8; 8]>,
    pub emergency_left: u16,
    pub produce_left: u16,
    pub outbox: Vec<Frame>,
}

impl Node {
    pub fn place(&self, key: Key) -> Option<usize> {
        self.entries.binary_search_by_key(&key, |entry| entry.key).ok()
    }

    pub fn get(&self, index: u16, sub: u8) -> u64 {
        self.place((index, sub))
            .map_or(0, |place| number(&self.entries[place].bytes))
    }

    fn put(&mut self, index: u16, sub: u8, value: u64) {
        if let Some(place) = self.place((index, sub)) {
            let width = self.entries[place].width;
            self.entries[place]
                .bytes
                .copy_from_slice(&value.to_le_bytes()[..width]);
        }
    }

    pub fn new(entries: Vec<Entry>, node_id: u8, time: u16) -> Node {
        let mut node = Node {
            node_id,
            entries,
            state: PRE_OPERATIONAL,
            time,
            handlers: Vec::new(),
            channels: Vec::new(),
            rpdos: Vec::new(),
            tpdos: Vec::new(),
            consumers: Vec::new(),
            queue: Default::default(),
            emergency_left: 0,
            produce_left: 0,
            outbox: Vec::with_capacity(514),
        };
        let greatest = node.entries.iter().map(|entry| entry.capacity).max().unwrap_or(0);
        for number in 0..128 {
            let ids = (
                node.get(0x1200 + number, 1) as u32,
                node.get(0x1200 + number, 2) as u32,
            );
            let ids = if number == 0 {
                (0x600 + u32::from(node_id), 0x580 + u32::from(node_id))
            } else {
                ids
            };
            if ids.0 != 0 && ids.1 != 0 && (ids.0 | ids.1) >> 31 == 0 {
                let held = Vec::with_capacity(greatest + 889);
                node.channels.push(Channel {
                    answer: ids.1 as u16,
                    held,
                    left: ids.0 as u16,
                    ..Default::default()
                });
            }
        }
        let has = |node: &Node, index: u16| node.place((index, 0)).is_some();
        node.rpdos = (0..512)
            .filter(|number| has(&node, 0x1400 + number))
            .map(|number| node.pdo(0x1400, 0x1600, number))
            .collect();
        node.tpdos = (0..512)
            .filter(|number| has(&node, 0x1800 + number))
            .map(|number| node.pdo(0x1800, 0x1A00, number))
            .collect();
        let requests: Vec<u16> = node
            .channels
            .iter_mut()
            .map(|channel| std::mem::take(&mut channel.left))
            .collect();
        node.configure(&requests);
        node.consumers = (1..=127)
            .filter(|sub| node.place((0x1016, *sub)).is_some())
            .map(|sub| node.consumer(sub))
            .collect();
        node.produce_left = node.get(0x1017, 0) as u16;
        node
    }

    fn consumer(&self, sub: u8) -> Consumer {
        let word = self.get(0x1016, sub) as u32;
        Consumer {
            sub,
            node: (word >> 16) as u8,
            time: word as u16,
            left: 0,
        }
    }

    fn pdo(&self, communication: u16, mapping: u16, number: u16) -> Pdo {
        let word = self.get(communication + number, 1) as u32;
        let mut map = Vec::new();
        for sub in 1..=self.get(mapping + number, 0) as u8 {
            let entry = self.get(mapping + number, sub) as u32;
            if let Some(place) = self.place(((entry >> 16) as u16, (entry >> 8) as u8)) {
                map.push((place, (entry & 255) as usize / 8));
            }
        }
        let kind = self.get(communication + number, 2) as u8;
        let event = self.get(communication + number, 5) as u16;
        Pdo {
            number,
            active: word != 0 && word >> 31 == 0 && !map.is_empty() && (kind <= 240 || kind >= 254),
            id: (word & 0x7FF) as u16,
            kind,
            inhibit: (self.get(communication + number, 3) as u16).div_ceil(10),
            event,
            size: map.iter().map(|entry| entry.1).sum(),
            map,
            event_left: event,
            ..Default::default()
        }
    }

    // who takes which identifier; the first rule wins, so the last ones are set first
    fn configure(&mut self, requests: &[u16]) {
        let old = std::mem::replace(&mut self.handlers, vec![Handler::Nobody; 2048]);
        for node in 1..=127 {
            self.handlers[0x700 + usize::from(node)] = Handler::Heartbeat(node);
        }
        for (place, pdo) in self.rpdos.iter().enumerate().rev().filter(|(_, pdo)| pdo.active) {
            self.handlers[usize::from(pdo.id)] = Handler::Rpdo(place);
        }
        for (id, handler) in old.into_iter().enumerate() {
            if let Handler::Channel(_) = handler {
                self.handlers[id] = handler;
            }
        }
        for (number, id) in requests.iter().enumerate() {
            self.handlers[usize::from(*id)] = Handler::Channel(number);
        }
        let sync = self.get(0x1005, 0) as u32;
        if sync != 0 {
            self.handlers[(sync & 0x7FF) as usize] = Handler::Sync;
        }
        self.handlers[0] = Handler::Nmt;
    }

    pub fn written(&mut self, key: Key) {
        let number = key.0 & 0x1FF;
        match key.0 {
            0x1005 => self.configure(&[]),
            0x1016 => {
                if let Some(place) = self.consumers.iter().position(|consumer| consumer.sub == key.1) {
                    self.consumers[place] = self.consumer(key.1);
                }
            }
            0x1017 => self.produce_left = self.get(0x1017, 0) as u16,
            0x1400..=0x17FF => {
                if let Some(place) = self.rpdos.iter().position(|pdo| pdo.number == number) {
                    self.rpdos[place] = self.pdo(0x1400, 0x1600, number);
                }
                self.configure(&[]);
            }
            0x1800..=0x1BFF => {
                if let Some(place) = self.tpdos.iter().position(|pdo| pdo.number == number) {
                    self.tpdos[place] = self.pdo(0x1800, 0x1A00, number);
                }
            }
            _ => {}
        }
    }

    pub fn take(&mut self, input: &Frame) {
        self.outbox.clear();
        let data = &input.1[..input.2];
        match self.handlers[usize::from(input.0)] {
            Handler::Nmt => self.command(data),
            Handler::Sync if self.state != STOPPED => self.sync(data.len()),
            Handler::Channel(number) if self.state != STOPPED && data.len() == 8 => {
                self.request(number, &input.1)
            }
            Handler::Rpdo(number) if self.state == OPERATIONAL => self.receive(number, &input.1, data.len()),
            Handler::Heartbeat(node) if matches!(data, [4 | 5 | 127]) => {
                for consumer in self.consumers.iter_mut().filter(|consumer| consumer.node == node) {
                    consumer.left = consumer.time;
                }
            }
            _ => {}
        }
        self.send_emergency();
    }

    fn command(&mut self, data: &[u8]) {
        if let [command, node] = data
            && (*node == 0 || *node == self.node_id)
        {
            match command {
                1 if self.state != OPERATIONAL => {
                    self.state = OPERATIONAL;
                    for pdo in &mut self.tpdos {
                        (pdo.count, pdo.asked, pdo.inhibit_left, pdo.event_left) = (0, false, 0, pdo.event);
                    }
                }
                2 => self.state = STOPPED,
                128 => self.state = PRE_OPERATIONAL,
                _ => {}
            }
        }
    }

    fn raise(&mut self, code: u16, bits: u8) {
        let register = self.get(0x1001, 0) as u8 | bits | 1;
        self.put(0x1001, 0, u64::from(register));
        let count = self.get(0x1003, 0) as u8;
        let length = (1..=254)
            .take_while(|sub| self.place((0x1003, *sub)).is_some())
            .count() as u8;
        for sub in (2..=length).rev() {
            let error = self.get(0x1003, sub - 1);
            self.put(0x1003, sub, error);
        }
        self.put(0x1003, 1, u64::from(code));
        self.put(0x1003, 0, u64::from((count + 1).min(length)));
        if self.queue.len() == 8 {
            self.queue.pop_front();
        }
        let [low, high] = code.to_le_bytes();
        self.queue.push_back([low, high, register, 0, 0, 0, 0, 0]);
    }

    fn send_emergency(&mut self) {
        if self.queue.is_empty() || self.emergency_left > 0 || self.state == STOPPED {
            return;
        }
        let word = self.get(0x1014, 0) as u32;
        if word != 0
            && word >> 31 == 0
            && let Some(bytes) = self.queue.pop_front()
        {
            self.outbox.push(frame((word & 0x7FF) as u16, &bytes));
            self.emergency_left = (self.get(0x1015, 0) as u16).div_ceil(10);
        }
    }

    fn receive(&mut self, number: usize, bytes: &[u8; 8], length: usize) {
        let size = self.rpdos[number].size;
        if length < size {
            return self.raise(0x8210, 0x10);
        }
        if length > size {
            self.raise(0x8220, 0x10);
        }
        if self.rpdos[number].kind <= 240 {
            self.rpdos[number].slot = Some((*bytes, size));
        } else {
            self.apply(number, bytes);
        }
    }

    fn apply(&mut self, number: usize, bytes: &[u8; 8]) {
        let map = &self.rpdos[number].map;
        let mut at = 0;
        for (place, width) in map {
            if !self.entries[*place].is_within(&bytes[at..at + width]) {
                return self.raise(0x8200, 0x10);
            }
            at += width;
        }
        at = 0;
        for (place, width) in map {
            self.entries[*place].bytes.copy_from_slice(&bytes[at..at + width]);
            at += width;
        }
    }

    fn sync(&mut self, length: usize) {
        if length != usize::from(self.get(0x1019, 0) != 0) {
            self.raise(0x8240, 0x10);
        }
        if self.state != OPERATIONAL {
            return;
        }
        for number in 0..self.rpdos.len() {
            if let Some((bytes, _)) = self.rpdos[number].slot.take() {
                self.apply(number, &bytes);
            }
        }
        self.send_emergency();
        for number in 0..self.tpdos.len() {
            let pdo = &mut self.tpdos[number];
            if !pdo.active || pdo.kind > 240 {
                continue;
            }
            let due = if pdo.kind == 0 {
                std::mem::take(&mut pdo.asked)
            } else {
                pdo.count = pdo.count % pdo.kind + 1;
                pdo.count == pdo.kind
            };
            if due {
                self.send(number);
            }
        }
    }

    fn send(&mut self, number: usize) {
        let pdo = &mut self.tpdos[number];
        let mut bytes = [0; 8];
        let mut at = 0;
        for (place, width) in &pdo.map {
            bytes[at..at + width].copy_from_slice(&self.entries[*place].bytes);
            at += width;
        }
        if pdo.kind > 240 {
            (pdo.asked, pdo.inhibit_left, pdo.event_left) = (false, pdo.inhibit, pdo.event);
        }
        self.outbox.push((pdo.id, bytes, at));
    }

    pub fn tick(&mut self) {
        self.outbox.clear();
        let mut late = None;
        for (number, channel) in self.channels.iter_mut().enumerate() {
            if channel.open.is_some() && self.time > 0 {
                channel.left = channel.left.saturating_sub(1);
                if channel.left == 0 && late.is_none() {
                    late = Some(number);
                }
            }
        }
        if let Some(number) = late {
            let channel = &mut self.channels[number];
            channel.open = None;
            let key = channel.key;
            let bytes = [0x80, key.0 as u8, (key.0 >> 8) as u8, key.1, 0, 0, 4, 5];
            self.outbox.push(frame(channel.answer, &bytes));
        }
        let mut lost = 0;
        for consumer in &mut self.consumers {
            if consumer.left > 0 {
                consumer.left -= 1;
                lost += u8::from(consumer.left == 0);
            }
        }
        for _ in 0..lost {
            self.raise(0x8130, 0x10);
            match self.get(0x1029, 1) {
                0 if self.state == OPERATIONAL => self.state = PRE_OPERATIONAL,
                2 => self.state = STOPPED,
                _ => {}
            }
        }
        self.emergency_left = self.emergency_left.saturating_sub(1);
        if late.is_none() {
            self.send_emergency();
        }
        if self.produce_left > 0 {
            self.produce_left -= 1;
            if self.produce_left == 0 {
                self.produce_left = self.get(0x1017, 0) as u16;
                self.outbox
                    .push(frame(0x700 + u16::from(self.node_id), &[self.state]));
            }
        }
        if self.state == OPERATIONAL {
            self.tick_tpdos();
        }
    }

    fn tick_tpdos(&mut self) {
        for number in 0..self.tpdos.len() {
            let pdo = &mut self.tpdos[number];
            if !pdo.active || pdo.kind <= 240 {
                continue;
            }
            pdo.inhibit_left = pdo.inhibit_left.saturating_sub(1);
            if pdo.event_left > 0 {
                pdo.event_left -= 1;
                pdo.asked |= pdo.event_left == 0;
            }
            if pdo.asked && pdo.inhibit_left == 0 {
                self.send(number);
            }
        }
    }
}
