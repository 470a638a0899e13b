//! The table file.

use crate::index::Index;
use crate::message::{Fields, Message, Pool, EMPTY_POOL};
use crate::reading::{Reading, Right};
use crate::refusal::{refuse_if, Refusal};
use crate::slip::Slip;
use crate::table::{Node, Sides, Status, Table};
use crate::valid::{check, in_limits, lent, lent_mut};

pub const HEADER: usize = 32;
pub const NODE: usize = 64;
pub const MESSAGE: usize = 56;

/// The largest file: 64 nodes and 256 messages.
pub const LARGEST: usize = HEADER + NODE * Table::NODES + MESSAGE * Table::MESSAGES;

/// The length of the file of `n` nodes and `count` messages.
pub const fn total(n: usize, count: usize) -> usize {
    HEADER + NODE * n + MESSAGE * count
}

/// Reads a whole table file, or refuses and changes nothing.
pub fn load(bytes: &[u8], table: &mut Table, pool: &mut [Message]) -> Result<(), Refusal> {
    load_as(Right, bytes, table, pool)
}

#[inline]
pub fn load_as<R: Reading>(
    r: R,
    bytes: &[u8],
    table: &mut Table,
    pool: &mut [Message],
) -> Result<(), Refusal> {
    refuse_if(r.takes(Slip::HeaderAloneIsSeven) && bytes.len() == HEADER, Refusal::Short)?;
    let header = Header::read(r, bytes)?;
    if r.takes(Slip::NineBeforeEight) {
        refuse_if(!header.lengths_agree(r, bytes.len()), Refusal::Lengths)?;
    }
    let out = r.pick(Slip::HeaderIsTen, Refusal::Invalid, Refusal::Header);
    refuse_if(!header.in_range(r), out)?;
    refuse_if(!header.lengths_agree(r, bytes.len()), header.wrong_length(r, bytes.len()))?;
    let pool = lent_mut(pool)?;
    let (n, count) = (header.n as usize, header.count_in(bytes.len()));
    let mut read = Table { m: header.m, l: header.l, n, count, ..Table::BLANK };
    for (node, record) in read.nodes[..n].iter_mut().zip(bytes[HEADER..].chunks_exact(NODE)) {
        *node = read_node(r, record).ok_or(Refusal::Invalid)?;
    }
    let messages = read_messages(r, &bytes[total(n, 0)..], count)?;
    check(r, &read, &messages, &mut Index::new())?;
    *table = read;
    *pool = messages;
    Ok(())
}

/// The eight words of the header.
struct Header {
    m: u32,
    l: u32,
    n: u32,
    count: u32,
    nodes: u32,
    messages: u32,
    total: u32,
    last: u32,
}

impl Header {
    #[inline]
    fn read<R: Reading>(r: R, bytes: &[u8]) -> Result<Header, Refusal> {
        let Some(bytes) = bytes.first_chunk::<HEADER>() else {
            return Err(Refusal::Short);
        };
        let mut read = Reader(bytes);
        let mut words = [(); 8].map(|()| read.word());
        exchange(r, &HEADER_WORDS, &mut words);
        let [m, l, n, count, nodes, messages, total, last] = words;
        Ok(Header { m, l, n, count, nodes, messages, total, last })
    }

    /// The number of messages, by a misreading no more than there are bytes for.
    #[inline]
    fn count_in(&self, length: usize) -> usize {
        let whole = length.saturating_sub(total(self.n as usize, 0)) / MESSAGE;
        whole.min(self.count as usize)
    }

    #[inline]
    fn in_range<R: Reading>(&self, r: R) -> bool {
        let counts = in_limits(r, self.m, self.l, self.n as usize)
            && self.count <= Table::MESSAGES as u32 - r.pick(Slip::Count256Refused, 1, 0);
        let crowded = r.takes(Slip::CrowdedIsEight) && u64::from(self.n) > 1 << (self.m & 63);
        counts && (self.last == 0 || r.takes(Slip::LastWordFree)) && !crowded
    }

    #[inline]
    fn lengths_agree<R: Reading>(&self, r: R, length: usize) -> bool {
        let messages = HEADER as u64 + NODE as u64 * u64::from(self.n);
        let total = messages + MESSAGE as u64 * u64::from(self.count);
        let long = r.takes(Slip::MoreBytesAccepted) && length as u64 > total;
        let short = r.takes(Slip::FewerBytesAccepted) && (messages..total).contains(&(length as u64));
        (self.nodes == HEADER as u32 || r.takes(Slip::NodeOffsetFree))
            && (u64::from(self.messages) == messages || r.takes(Slip::MessageOffsetFree))
            && (u64::from(self.total) == total || r.takes(Slip::TotalFree))
            && (length as u64 == total || long || short)
    }

    fn wrong_length<R: Reading>(&self, r: R, length: usize) -> Refusal {
        let short = length < total(self.n as usize, self.count as usize);
        if short && r.takes(Slip::AnyShortIsSeven) {
            return Refusal::Short;
        }
        let agrees = length == total(self.n as usize, self.count as usize);
        r.pick(Slip::OffsetIsEight, if agrees { Refusal::Header } else { Refusal::Lengths }, Refusal::Lengths)
    }
}

/// Reads the part of the file that begins at the message offset.
#[inline]
fn read_messages<R: Reading>(r: R, bytes: &[u8], count: usize) -> Result<Pool, Refusal> {
    let mut pool = EMPTY_POOL;
    for (message, record) in pool[..count].iter_mut().zip(bytes.chunks_exact(MESSAGE)) {
        *message = read_message(r, record).ok_or(Refusal::Invalid)?;
    }
    Ok(pool)
}

#[inline]
fn read_node<R: Reading>(r: R, record: &[u8]) -> Option<Node> {
    let mut read = Reader(record);
    let mut words = [read.word(), read.word()];
    exchange(r, &NODE_WORDS, &mut words);
    let [id, status] = words;
    let status = r.pick(Slip::StatusHighIsReady, status.min(3), status);
    let status = if status > 3 { r.pick(Slip::StatusHighIsDead, 0, status) } else { status };
    let status = Status::from_number(status)?;
    let mut sets = [(); 7].map(|()| read.long());
    exchange(r, &NODE_SETS, &mut sets);
    let [left, right, probing, failed, routing, lease, grant] = sets;
    Some(Node { id, status, sides: Sides { left, right }, probing, failed, routing, lease, grant })
}

#[inline]
fn read_message<R: Reading>(r: R, record: &[u8]) -> Option<Message> {
    let mut read = Reader(record);
    let mut words = [(); 6].map(|()| read.word());
    let mut sets = [(); 4].map(|()| read.long());
    exchange(r, &MESSAGE_WORDS, &mut words);
    exchange(r, &MESSAGE_SETS, &mut sets);
    let [kind, to, node_or_key, flag, owner, hops] = words;
    let [routing, left, right, failed] = sets;
    if hops != 0 && r.takes(Slip::SixthWordZero) {
        return None;
    }
    if kind == 0 && r.takes(Slip::BlankAccepted) {
        return Some(Message::Blank);
    }
    let mut fields = Fields { kind, to, node_or_key, flag, owner, hops, routing, left, right, failed };
    slip_fields(r, &mut fields);
    Message::from_fields(&fields)
}

/// The misreadings of a record's fields.
#[inline]
fn slip_fields<R: Reading>(r: R, fields: &mut Fields) {
    let probe = matches!(fields.kind, 4 | 5);
    if r.takes(Slip::OwnerNotNode) && probe {
        fields.node_or_key = fields.owner;
    }
    if r.takes(Slip::FlagAnyNumber) && fields.kind == 8 {
        fields.flag = fields.flag.min(1);
    }
    if r.takes(Slip::FlagFreeElsewhere) && fields.kind != 8 {
        fields.flag = 0;
    }
    if r.takes(Slip::OwnerFreeElsewhere) && matches!(fields.kind, 1 | 2 | 6 | 7) {
        fields.owner = 0;
    }
    if r.takes(Slip::SixthWordFree) || r.takes(Slip::HopsFreeElsewhere) && fields.kind != 1 {
        fields.hops = 0;
    }
    if r.takes(Slip::HopsInByte) {
        fields.hops &= 0xff;
    }
    if r.takes(Slip::NodeFreeElsewhere) && matches!(fields.kind, 3 | 8) {
        fields.node_or_key = 0;
    }
    if r.takes(Slip::SetsFreeElsewhere) {
        fields.routing *= u64::from(matches!(fields.kind, 2 | 3));
        fields.failed *= u64::from(probe);
        fields.left *= u64::from(matches!(fields.kind, 3 | 4 | 5 | 8));
        fields.right *= u64::from(matches!(fields.kind, 3 | 4 | 5 | 8));
    }
}

/// Writes a valid table into the first bytes of the buffer and tells how many, or refuses and changes nothing.
pub fn write(table: &Table, pool: &[Message], buffer: &mut [u8]) -> Result<usize, Refusal> {
    write_as(Right, table, pool, buffer)
}

pub fn write_as<R: Reading>(
    r: R,
    table: &Table,
    pool: &[Message],
    buffer: &mut [u8],
) -> Result<usize, Refusal> {
    let pool = lent(pool)?;
    // A misreading writes whatever it has made.
    if r.is_right() {
        check(r, table, pool, &mut Index::new())?;
    }
    let total = total(table.n, table.count);
    let buffer = buffer.get_mut(..total).ok_or(Refusal::NoRoom)?;
    let (header, records) = buffer.split_at_mut(HEADER);
    let (nodes, messages) = records.split_at_mut(NODE * table.n);
    write_header(r, table, total, &mut Writer(header));
    for (node, record) in table.listed().iter().zip(nodes.chunks_exact_mut(NODE)) {
        write_node(r, node, &mut Writer(record));
    }
    for (message, record) in pool[..table.count].iter().zip(messages.chunks_exact_mut(MESSAGE)) {
        write_message(r, &message.fields(), &mut Writer(record));
    }
    Ok(total)
}

fn write_header<R: Reading>(r: R, table: &Table, total: usize, to: &mut Writer) {
    let (n, count) = (table.n as u32, table.count as u32);
    let messages = (HEADER + NODE * table.n) as u32;
    let mut words = [table.m, table.l, n, count, HEADER as u32, messages, total as u32, 0];
    exchange(r, &HEADER_WORDS, &mut words);
    words.iter().for_each(|&word| to.word(word));
}

fn write_node<R: Reading>(r: R, node: &Node, to: &mut Writer) {
    let Node { id, status, sides, probing, failed, routing, lease, grant } = *node;
    let mut words = [id, status as u32];
    let mut sets = [sides.left, sides.right, probing, failed, routing, lease, grant];
    exchange(r, &NODE_WORDS, &mut words);
    exchange(r, &NODE_SETS, &mut sets);
    words.iter().for_each(|&word| to.word(word));
    sets.iter().for_each(|&set| to.long(set));
}

fn write_message<R: Reading>(r: R, fields: &Fields, to: &mut Writer) {
    let hops = r.pick(Slip::HopsNotWritten, 0, fields.hops);
    let mut words = [fields.kind, fields.to, fields.node_or_key, fields.flag, fields.owner, hops];
    let mut sets = [fields.routing, fields.left, fields.right, fields.failed];
    exchange(r, &MESSAGE_WORDS, &mut words);
    exchange(r, &MESSAGE_SETS, &mut sets);
    words.iter().for_each(|&word| to.word(word));
    sets.iter().for_each(|&set| to.long(set));
}

/// The first of two neighbouring fields that a misreading exchanges, in reading and in writing.
type Exchanges<const N: usize> = [(Slip, usize); N];

const HEADER_WORDS: Exchanges<3> =
    [(Slip::HeaderLimitsExchanged, 0), (Slip::HeaderCountsExchanged, 2), (Slip::HeaderOffsetsExchanged, 4)];
const NODE_WORDS: Exchanges<1> = [(Slip::NodeIdExchanged, 0)];
const NODE_SETS: Exchanges<6> = [
    (Slip::NodeSidesExchanged, 0),
    (Slip::NodeRightExchanged, 1),
    (Slip::NodeProbingExchanged, 2),
    (Slip::NodeFailedExchanged, 3),
    (Slip::NodeRoutingExchanged, 4),
    (Slip::NodeLeaseExchanged, 5),
];
const MESSAGE_WORDS: Exchanges<5> = [
    (Slip::MessageKindExchanged, 0),
    (Slip::MessageToExchanged, 1),
    (Slip::MessageNodeExchanged, 2),
    (Slip::MessageFlagExchanged, 3),
    (Slip::MessageOwnerExchanged, 4),
];
const MESSAGE_SETS: Exchanges<3> =
    [(Slip::MessageRoutingExchanged, 0), (Slip::MessageSidesExchanged, 1), (Slip::MessageRightExchanged, 2)];

#[inline(always)]
fn exchange<R: Reading, T, const N: usize>(r: R, exchanges: &Exchanges<N>, fields: &mut [T]) {
    for &(slip, first) in exchanges {
        if r.takes(slip) {
            fields.swap(first, first + 1);
        }
    }
}

/// Takes little-endian numbers from the front. There are enough bytes.
struct Reader<'a>(&'a [u8]);

impl Reader<'_> {
    #[inline]
    fn word(&mut self) -> u32 {
        let (word, rest) = self.0.split_first_chunk().expect("a record is whole");
        self.0 = rest;
        u32::from_le_bytes(*word)
    }

    #[inline]
    fn long(&mut self) -> u64 {
        let (long, rest) = self.0.split_first_chunk().expect("a record is whole");
        self.0 = rest;
        u64::from_le_bytes(*long)
    }
}

/// Puts little-endian numbers at the front. There is room.
struct Writer<'a>(&'a mut [u8]);

impl Writer<'_> {
    #[inline]
    fn word(&mut self, word: u32) {
        self.put(&word.to_le_bytes());
    }

    #[inline]
    fn long(&mut self, long: u64) {
        self.put(&long.to_le_bytes());
    }

    #[inline]
    fn put(&mut self, bytes: &[u8]) {
        let (place, rest) = std::mem::take(&mut self.0).split_at_mut(bytes.len());
        place.copy_from_slice(bytes);
        self.0 = rest;
    }
}
