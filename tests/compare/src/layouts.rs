//! Headers that are laid out as asked: the digest's tag at any place, behind any of the other tags, padding and tags that are skipped.
use crate::inputs::*;
use crate::random::Random;
use crate::reference::*;

const DIGEST: u16 = 0x0003;

/// What a byte of a header belongs to.
#[derive(Clone, Copy, PartialEq, Eq)]
pub enum Piece {
    Magic,
    Size,
    Padding,
    OtherTag,
    TableTag,
    End,
    Rest,
}

/// What fills the room between the tags of the table.
#[derive(Clone, Copy)]
pub enum Filling {
    Padding,
    OtherTags,
    Both,
}

enum Item {
    Padding(usize),
    Tag(Tag),
}

impl Item {
    fn length(&self) -> usize {
        match self {
            Item::Padding(n) => *n,
            Item::Tag((_, value)) => 4 + value.len(),
        }
    }
}

/// The tags of the table in the order in which a header is to have them, the digest's among them.
#[derive(Clone)]
pub struct Order(pub Vec<u16>);

impl Order {
    /// How many tags of the table stand before the digest's.
    pub fn rank(&self) -> usize {
        self.0.iter().position(|kind| *kind == DIGEST).unwrap()
    }

    fn length(kinds: &[u16]) -> usize {
        let rows = TYPES.iter().zip(LENGTHS);
        rows.filter(|(kind, _)| kinds.contains(kind)).map(|(_, length)| 4 + length).sum()
    }

    /// The first and the last place at which the digest's tag can stand.
    pub fn places(&self) -> (usize, usize) {
        let (before, from) = self.0.split_at(self.rank());
        (8 + Order::length(before), HEADER - 2 - Order::length(from))
    }
}

/// An image: a header that was laid out, and its firmware.
#[derive(Clone)]
pub struct Image {
    pub bytes: Vec<u8>,
    /// What each byte of the header belongs to.
    pub pieces: Vec<Piece>,
    /// Where the digest's tag begins, and where the firmware ends.
    pub at: usize,
    pub end: usize,
}

/// A tag of so many bytes that is skipped. If it can, it is often one that a byte makes a tag of the table.
fn skipped_tag(r: &mut Random, length: usize) -> Tag {
    let near: Vec<u16> = TYPES.iter().zip(LENGTHS).filter(|(_, l)| 4 + l == length).map(|(kind, _)| kind ^ 0x0100).collect();
    let kind = if near.is_empty() || r.one_in(3) { skipped_type(r) } else { r.pick(&near) };
    (kind, r.bytes(length - 4))
}

/// Padding and a tag that is skipped. If the first byte of the padding is not FF, the two are one tag, which ends where they end. With two
/// bytes of padding it is of a type from FF00 up, as long as the first tag's type says; with one byte it is skipped.
fn padding_and_tag(r: &mut Random, room: usize) -> [Item; 2] {
    if r.one_in(2) {
        let length = r.within(2, (room - 6).min(29));
        [Item::Padding(2), Item::Tag((length as u16 + 2, r.bytes(length)))]
    } else {
        [Item::Padding(1), Item::Tag((0x0100 + r.within(1, 0x7F) as u16, vec![]))]
    }
}

/// Puts padding and tags that are skipped among these, so many bytes.
fn fill(r: &mut Random, items: &mut Vec<Item>, mut room: usize, filling: Filling) {
    while room > 0 {
        let at = r.below(items.len() + 1);
        let tag = match filling {
            Filling::Padding => false,
            Filling::OtherTags => room >= 4,
            Filling::Both => room >= 4 && r.one_in(2),
        };
        if tag && matches!(filling, Filling::Both) && room >= 8 && r.one_in(2) {
            let pair = padding_and_tag(r, room);
            room -= pair.iter().map(Item::length).sum::<usize>();
            items.splice(at..at, pair);
        } else {
            let any = r.within(1, room);
            let length = if room < 8 { room } else { r.pick(&[8, 12.min(room), 36.min(room), any, room]) };
            let item = if tag { Item::Tag(skipped_tag(r, length.max(4))) } else { Item::Padding(length) };
            room -= item.length();
            items.insert(at, item);
        }
    }
}

/// These tags of the table, and so many bytes between them.
fn items(r: &mut Random, v: &Header, kinds: &[u16], room: usize, filling: Filling) -> Vec<Item> {
    let tags = table_tags(v);
    let mut all: Vec<Item> = kinds.iter().map(|kind| Item::Tag(tags.iter().find(|(k, _)| k == kind).unwrap().clone())).collect();
    fill(r, &mut all, room, filling);
    all
}

impl Image {
    /// An image with a right digest, whose tag stands at this place.
    pub fn new(r: &mut Random, order: &Order, at: usize, filling: Filling, version: u32, size: usize) -> Self {
        let mut v = header(r, size as u32, version);
        v.hint = order.0.contains(&0x1000).then(|| r.bytes(32).try_into().unwrap());
        let (first, last) = order.places();
        let (before, from) = order.0.split_at(order.rank());
        let behind = r.within(0, last - at);
        let behind = r.pick(&[0, behind, last - at]);
        let mut all = items(r, &v, before, at - first, filling);
        all.push(Item::Tag((DIGEST, vec![0; 32])));
        all.extend(items(r, &v, &from[1..], behind, Filling::Both));
        let mut image = Image { bytes: Vec::new(), pieces: Vec::new(), at, end: HEADER + size };
        image.put(&MAGIC, Piece::Magic);
        image.put(&v.size.to_le_bytes(), Piece::Size);
        for item in &all {
            image.put_item(item);
        }
        image.put(&[0, 0], Piece::End);
        let any = r.next() as u8;
        let rest = vec![r.pick(&[0xFF, 0xFF, 0, any]); HEADER - image.bytes.len()];
        image.put(&rest, Piece::Rest);
        image.bytes.extend_from_slice(&r.bytes(size));
        sign(&mut image.bytes, at, HEADER + size);
        image
    }

    fn put(&mut self, bytes: &[u8], piece: Piece) {
        self.bytes.extend_from_slice(bytes);
        self.pieces.resize(self.bytes.len(), piece);
    }

    fn put_item(&mut self, item: &Item) {
        match item {
            Item::Padding(n) => self.put(&vec![0xFF; *n], Piece::Padding),
            Item::Tag((kind, value)) => {
                let mut tag = Vec::new();
                put_tag(&mut tag, *kind, value.len() as u16, value);
                self.put(&tag, if TYPES.contains(kind) { Piece::TableTag } else { Piece::OtherTag });
            }
        }
    }

    /// The image at the front of a partition of this geometry, whose other bytes are any.
    pub fn partition(&self, r: &mut Random, g: Geometry) -> Vec<u8> {
        let mut all = self.bytes.clone();
        all.extend_from_slice(&r.bytes(g.n * g.s - self.bytes.len()));
        all
    }
}
