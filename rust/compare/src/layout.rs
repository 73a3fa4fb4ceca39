//! Layouts of the card's side: lists of objects, entries and placements, good ones and damaged ones.

use crate::damage;
use crate::objects::{self, TEMPLATES, UNKNOWN};
use crate::rng::Rng;
use model::dictionary::{Form, Object, Row, Setter, Templates};

/// What a call is given: the list and its layout, the lengths of the two buffers, and the byte that fills them.
#[derive(Clone, Debug, PartialEq, Eq)]
pub struct Layout {
    /// The list of objects.
    pub objects: Vec<u8>,
    /// The AFL as proposed.
    pub entries: Vec<u8>,
    /// Record and object numbers.
    pub placements: Vec<u8>,
    /// Length of the buffer for the records.
    pub records_room: usize,
    /// Length of the buffer for the AFL.
    pub locator_room: usize,
    /// What the buffers hold before the call.
    pub fill: u8,
}

/// Kinds of an answer by their numbers in the word. The refusals are in the order in which they are looked for.
#[derive(Clone, Copy, Debug, PartialEq, Eq, PartialOrd, Ord)]
pub enum Kind {
    /// Records and AFL are written.
    Written,
    /// The buffer for the records is refused.
    RecordsBuffer,
    /// The buffer for the AFL is refused.
    LocatorBuffer,
    /// The list is refused.
    List,
    /// An entry is refused.
    Entry,
    /// A record is refused.
    Record,
}

impl Kind {
    /// All kinds.
    pub const ALL: [Kind; 6] = [
        Kind::Written,
        Kind::RecordsBuffer,
        Kind::LocatorBuffer,
        Kind::List,
        Kind::Entry,
        Kind::Record,
    ];
}

macro_rules! damages {
    ($($kind:ident { $($(#[$doc:meta])* $name:ident,)* })*) => {
        /// A breach of one rule in a layout that keeps all others.
        #[derive(Clone, Copy, Debug, PartialEq, Eq)]
        pub enum Damage { $($($(#[$doc])* $name,)*)* }

        impl Damage {
            /// All damages.
            pub const ALL: [Damage; DAMAGES] = [$($(Damage::$name,)*)*];

            /// The refusal that is expected.
            pub fn kind(self) -> Kind {
                match self {
                    $($(Damage::$name)|* => Kind::$kind,)*
                }
            }
        }

        /// How many damages there are.
        pub const DAMAGES: usize = [$($(stringify!($name),)*)*].len();
    };
}

damages! {
    RecordsBuffer {
        /// The buffer for the records is under 32,768 bytes.
        ShortRecords,
    }
    LocatorBuffer {
        /// The buffer for the AFL is under 248 bytes.
        ShortLocator,
    }
    List {
        /// Bytes that are no object.
        Broken,
        /// The last object is truncated.
        CutObject,
        /// A length in a form that is refused.
        RefusedLength,
        /// A template.
        Template,
        /// A tag that the dictionary does not have.
        UnknownTag,
        /// A tag that the card may set in other templates alone, or in none.
        TagOfOther,
        /// A tag of the terminal, private ones too.
        TagOfTerminal,
        /// A tag of the session.
        TagOfSession,
        /// A length that does not fit the row.
        WrongLength,
        /// A digit that does not fit the row.
        WrongDigit,
        /// A tag twice, both values not empty.
        Doubled,
        /// A tag twice, one value or both empty.
        DoubledEmpty,
        /// An object that no placement names.
        LeftOut,
        /// An object that two placements name.
        PlacedTwice,
        /// An object that 256 or 257 placements name.
        PlacedOften,
    }
    Entry {
        /// No entry.
        NoEntry,
        /// The last entry is truncated.
        CutEntry,
        /// 63 entries.
        Entry63,
        /// One of the low three bits of byte 1.
        LowBits,
        /// File 0.
        File0,
        /// File 11 or above.
        File11,
        /// First record 0.
        FirstZero,
        /// Last record below the first.
        LastBelow,
        /// Byte 4 is not 0.
        Byte4,
        /// A record that the entry right before names.
        NamedBefore,
        /// A record that an entry further before names.
        NamedEarlier,
        /// 129 records in all.
        Records129,
        /// 256 records in all or more.
        Records256,
        /// Two entries that are bad by themselves.
        TwoEntries,
    }
    Record {
        /// A placement into record 0.
        Record0,
        /// A placement into a record after the last.
        RecordBehind,
        /// A placement of object 0.
        Object0,
        /// A placement of an object after the last.
        ObjectBehind,
        /// A placement of one byte.
        HalfPlacement,
        /// 254 bytes in a record.
        Content254,
        /// More bytes in a record.
        ContentOver,
        /// Two records that are bad.
        TwoRecords,
    }
}

/// A drawn layout, and what is known of its answer.
#[derive(Clone, Debug)]
pub struct Drawn {
    /// What the call is given.
    pub layout: Layout,
    /// The damages that it has.
    pub damages: Vec<Damage>,
    /// The kind of the answer by how it was drawn; none where single bytes were changed.
    pub due: Option<Kind>,
}

impl Drawn {
    /// Draws a layout: good, with one damage, with one of several kinds each, or with bytes changed.
    pub fn draw(rng: &mut Rng) -> Drawn {
        let damages = match rng.below(10) {
            0..=3 => Vec::new(),
            4..=7 => vec![rng.pick(&Damage::ALL)],
            8 => several(rng),
            _ => return Drawn::changed(rng),
        };
        let layout = damaged(rng, &damages);
        let kinds = damages.iter().map(|damage| damage.kind());
        Drawn {
            layout,
            due: Some(kinds.min().unwrap_or(Kind::Written)),
            damages,
        }
    }

    /// A good layout with some bytes changed, or bytes that are hardly one.
    fn changed(rng: &mut Rng) -> Drawn {
        let mut layout = damaged(rng, &[]);
        match rng.below(4) {
            0 => damage::bytes(rng, &mut layout.objects),
            1 => damage::bytes(rng, &mut layout.entries),
            2 => damage::bytes(rng, &mut layout.placements),
            _ => {
                let few = |rng: &mut Rng| (0..rng.below(9)).map(|_| rng.below(9) as u8).collect();
                layout.placements = few(rng);
                layout.entries = few(rng);
                for lead in layout.entries.iter_mut().step_by(4) {
                    *lead <<= 3;
                }
            }
        }
        Drawn {
            layout,
            damages: Vec::new(),
            due: None,
        }
    }
}

/// At most one damage of each kind, in the order in which they are done: placements, entries, list, buffers.
fn several(rng: &mut Rng) -> Vec<Damage> {
    let mut damages = Vec::new();
    for kind in Kind::ALL.into_iter().rev() {
        let of_kind: Vec<Damage> = Damage::ALL
            .into_iter()
            .filter(|damage| damage.kind() == kind)
            .collect();
        let often = if kind > Kind::LocatorBuffer { 2 } else { 6 };
        if !of_kind.is_empty() && rng.one_in(often) {
            damages.push(rng.pick(&of_kind));
        }
    }
    damages
}

/// A layout with these damages.
fn damaged(rng: &mut Rng, damages: &[Damage]) -> Layout {
    let shape = if damages.contains(&Damage::Entry63) {
        Shape::Entries62
    } else if damages.contains(&Damage::Records129) {
        Shape::Records128
    } else {
        rng.pick(&[
            Shape::Few,
            Shape::Few,
            Shape::Few,
            Shape::Few,
            Shape::Any,
            Shape::Entries62,
            Shape::Records128,
        ])
    };
    let mut draft = Draft::good(rng, shape);
    if damages.len() > 1 {
        // A list that is not empty, so that no damage puts the first object there.
        draft.some_piece(rng);
    }
    for &damage in damages {
        draft.damage(rng, damage);
    }
    draft.layout(rng)
}

/// How many entries and records an AFL has.
#[derive(Clone, Copy, Debug, PartialEq, Eq)]
enum Shape {
    /// A few of both.
    Few,
    /// Any number of both.
    Any,
    /// 62 entries.
    Entries62,
    /// 128 records in at most 61 entries.
    Records128,
}

/// One object of the list, as it is present, and the records it is placed into.
#[derive(Clone, Debug)]
struct Piece {
    tag: u32,
    bytes: Vec<u8>,
    /// Bytes of the object with its shortest length.
    size: usize,
    records: Vec<u8>,
}

impl Piece {
    /// An object, its length mostly in the shortest form.
    fn new(rng: &mut Rng, tag: u32, value: &[u8], record: u8) -> Piece {
        let mut head = Vec::new();
        objects::put_tag(&mut head, tag);
        let length = if value.len() < 0x80 { 1 } else { 2 };
        Piece {
            tag,
            bytes: objects::object(rng, tag, value),
            size: head.len() + length + value.len(),
            records: vec![record],
        }
    }
}

/// A layout before it becomes bytes. The list's objects bring their placements along.
#[derive(Clone, Debug)]
struct Draft {
    pieces: Vec<Piece>,
    entries: Vec<[u8; 4]>,
    /// How many records the entries name before they are damaged.
    count: usize,
    /// Bytes of an entry that is truncated.
    cut_entry: Vec<u8>,
    /// Placements of no object of the list.
    placements: Vec<[u8; 2]>,
    /// A last placement of one byte.
    half: Option<u8>,
    records_room: usize,
    locator_room: usize,
}

impl Draft {
    /// A layout that keeps every rule.
    fn good(rng: &mut Rng, shape: Shape) -> Draft {
        let entries = apart(rng, shape);
        let mut draft = Draft {
            pieces: Vec::new(),
            count: entries.iter().map(size).sum(),
            entries,
            cut_entry: Vec::new(),
            placements: Vec::new(),
            half: None,
            records_room: 32_768 + rng.pick(&[0, 0, 0, 1, 5000]),
            locator_room: 248 + rng.pick(&[0, 0, 0, 1, 50]),
        };
        let mut left = objects::in_template(Templates::T70);
        let most = rng.pick(&[0, 1, 2, 3, 6, 12, 12]);
        for _ in 0..most {
            let object = left.swap_remove(rng.below(left.len()));
            let mut value = objects::good_value(rng, object);
            if object.row().least == 0 && rng.one_in(6) {
                value.clear();
            }
            let record = draft.some_record(rng);
            let piece = Piece::new(rng, object.row().tag, &value, record);
            if draft.content(record) + piece.size <= 253 {
                draft.pieces.push(piece);
            }
        }
        if rng.one_in(4) {
            let record = draft.some_record(rng);
            let target = rng.pick(&[126, 127, 128, 129, 252, 253, 253]);
            draft.fill(rng, record, target);
        }
        draft
    }

    /// One of the AFL's records, often one of the first.
    fn some_record(&self, rng: &mut Rng) -> u8 {
        let few = self.count.min(3);
        let most = rng.pick(&[few, self.count]);
        rng.within(1..=most) as u8
    }

    /// Bytes of a record's content.
    fn content(&self, record: u8) -> usize {
        let here = self.pieces.iter().filter(|p| p.records.contains(&record));
        here.map(|piece| piece.size).sum()
    }

    /// Puts an object somewhere into the list, and into one record.
    fn insert(&mut self, rng: &mut Rng, tag: u32, value: &[u8]) {
        let record = self.some_record(rng);
        let piece = Piece::new(rng, tag, value, record);
        self.pieces.insert(rng.within(0..=self.pieces.len()), piece);
    }

    /// Puts an object into the list in the place of the one with its tag, if it is present.
    fn replace(&mut self, rng: &mut Rng, tag: u32, value: &[u8]) {
        match self.pieces.iter().position(|piece| piece.tag == tag) {
            Some(at) => self.pieces[at] = Piece::new(rng, tag, value, self.pieces[at].records[0]),
            None => self.insert(rng, tag, value),
        }
    }

    /// An object of the list; one is put there if it has none.
    fn some_piece(&mut self, rng: &mut Rng) -> &mut Piece {
        if self.pieces.is_empty() {
            self.insert(rng, 0x9F08, &[0, 2]);
        }
        let at = rng.below(self.pieces.len());
        &mut self.pieces[at]
    }

    /// Fills a record with an 8C up to a number of bytes; at least two of them are another object's.
    fn fill(&mut self, rng: &mut Rng, record: u8, target: usize) {
        self.pieces.retain(|piece| piece.tag != 0x8C);
        while self.content(record) + 2 > target {
            // The longest objects go.
            let sizes = self.pieces.iter().map(|piece| piece.size);
            let most = sizes.max().unwrap_or(0);
            self.pieces.retain(|piece| piece.size != most);
        }
        if self.content(record) == 0 {
            self.pieces.retain(|piece| piece.tag != 0x57);
            let piece = Piece::new(rng, 0x57, &[], record);
            self.pieces.insert(rng.within(0..=self.pieces.len()), piece);
        }
        let size = target - self.content(record);
        let length = if size < 130 { size - 2 } else { size - 3 };
        let value = rng.bytes(length);
        let piece = Piece::new(rng, 0x8C, &value, record);
        self.pieces.insert(rng.within(0..=self.pieces.len()), piece);
    }

    /// Breaks one rule.
    fn damage(&mut self, rng: &mut Rng, damage: Damage) {
        match damage.kind() {
            Kind::Written => {}
            Kind::RecordsBuffer => {
                let any = rng.below(32_768);
                self.records_room = rng.pick(&[32_767, 32_767, 0, 1, 257, any]);
            }
            Kind::LocatorBuffer => {
                let any = rng.below(248);
                self.locator_room = rng.pick(&[247, 247, 0, 4, any]);
            }
            Kind::List => self.damage_list(rng, damage),
            Kind::Entry => self.damage_entries(rng, damage),
            Kind::Record => self.damage_records(rng, damage),
        }
    }

    fn damage_list(&mut self, rng: &mut Rng, damage: Damage) {
        let of_70 = |rng: &mut Rng| rng.pick(&objects::in_template(Templates::T70));
        let value = rng.bytes(2);
        match damage {
            Damage::Broken => {
                let bytes = objects::broken(rng).to_vec();
                self.insert_bytes(rng, bytes);
            }
            Damage::CutObject => {
                self.some_piece(rng);
                if let Some(piece) = self.pieces.last_mut() {
                    piece.bytes.truncate(rng.within(1..=piece.bytes.len() - 1));
                }
            }
            Damage::RefusedLength => {
                let object = of_70(rng);
                let mut bytes = Vec::new();
                objects::put_refused_length(rng, &mut bytes, object.row().tag);
                self.pieces.retain(|piece| piece.tag != object.row().tag);
                self.insert_bytes(rng, bytes);
            }
            Damage::Template => {
                let other = rng.pick(&TEMPLATES);
                let tag = rng.pick(&[0x70, 0x77, other]);
                let inner = rng.pick(&[&[][..], &[0x57, 0x00]]);
                self.insert(rng, tag, inner);
            }
            Damage::UnknownTag => {
                let tag = rng.pick(&UNKNOWN);
                self.insert(rng, tag, &value);
            }
            Damage::TagOfOther | Damage::TagOfTerminal | Damage::TagOfSession => {
                let test: fn(&Row) -> bool = match damage {
                    Damage::TagOfOther => {
                        |row| row.is_of_card() && !row.templates.meets(Templates::T70)
                    }
                    Damage::TagOfTerminal => |row| row.setter == Setter::Start,
                    _ => |row| row.setter == Setter::Session,
                };
                let object = rng.pick(&objects::which(test));
                let value = objects::good_value(rng, object);
                self.insert(rng, object.row().tag, &value);
            }
            Damage::WrongLength => {
                let row = of_70(rng).row();
                let (least, most) = (usize::from(row.least), usize::from(row.most));
                let above = rng.pick(&[most + 1, most + 1, most + 6, most + 256, 65_535]);
                let below = rng.within(0..=least.saturating_sub(1));
                let length = if least > 0 && rng.one_in(2) {
                    below
                } else {
                    above
                };
                self.replace(rng, row.tag, &vec![0x11; length]);
            }
            Damage::WrongDigit => {
                let digits = objects::which(|row| {
                    row.templates.meets(Templates::T70) && row.form != Form::Binary
                });
                let object = rng.pick(&digits);
                let value = wrong_digits(rng, object);
                self.replace(rng, object.row().tag, &value);
            }
            Damage::Doubled => {
                let mut object = of_70(rng);
                let mut values = [(); 2].map(|()| objects::good_value(rng, object));
                if values.iter().any(Vec::is_empty) {
                    object = Object::Track2;
                    values = [vec![1], vec![2, 3]];
                }
                self.double(rng, object, values);
            }
            Damage::DoubledEmpty => {
                let object = rng.pick(&[
                    Object::Track2,
                    Object::Pan,
                    Object::Cdol1,
                    Object::Udol,
                    Object::Track2Data,
                ]);
                let values = rng.pick(&[[&[][..], &[0x12]], [&[0x12], &[]], [&[], &[]]]);
                self.double(rng, object, values.map(<[u8]>::to_vec));
            }
            Damage::LeftOut => self.some_piece(rng).records.clear(),
            Damage::PlacedTwice => {
                let record = self.some_record(rng);
                self.some_piece(rng).records.push(record);
            }
            _ => {
                let times = rng.pick(&[256, 257]);
                let piece = self.some_piece(rng);
                piece.records = piece.records[..1].repeat(times);
            }
        }
    }

    /// Puts bytes into the list that no placement names.
    fn insert_bytes(&mut self, rng: &mut Rng, bytes: Vec<u8>) {
        let piece = Piece {
            tag: 0,
            size: bytes.len(),
            bytes,
            records: Vec::new(),
        };
        self.pieces.insert(rng.within(0..=self.pieces.len()), piece);
    }

    /// Puts an object into the list with two values, in this order.
    fn double(&mut self, rng: &mut Rng, object: Object, values: [Vec<u8>; 2]) {
        let tag = object.row().tag;
        self.pieces.retain(|piece| piece.tag != tag);
        let [first, second] = values;
        self.insert(rng, tag, &first);
        let at = self.pieces.iter().position(|piece| piece.tag == tag);
        let record = self.some_record(rng);
        let piece = Piece::new(rng, tag, &second, record);
        let behind = at.map_or(0, |at| at + 1);
        let at = rng.within(behind..=self.pieces.len());
        self.pieces.insert(at, piece);
    }

    fn damage_entries(&mut self, rng: &mut Rng, damage: Damage) {
        let at = rng.below(self.entries.len());
        let entry = self.entries[at];
        match damage {
            Damage::NoEntry => self.entries.clear(),
            Damage::CutEntry => {
                let next = free(rng, &self.entries, 1);
                self.cut_entry = next[..rng.within(1..=3)].to_vec();
            }
            Damage::Entry63 => {
                while self.entries.len() < 63 || rng.one_in(4) {
                    self.entries.push(free(rng, &self.entries, 1));
                }
            }
            Damage::LowBits => self.entries[at][0] |= 1 << rng.below(3),
            Damage::File0 => self.entries[at][0] = 0,
            Damage::File11 => self.entries[at][0] = rng.pick(&[11, 11, 12, 30, 31]) << 3,
            Damage::FirstZero => self.entries[at][1] = 0,
            Damage::LastBelow => {
                let any = rng.within(0..=usize::from(entry[1]) - 1) as u8;
                self.entries[at][2] = rng.pick(&[entry[1] - 1, any]);
            }
            Damage::Byte4 => {
                self.entries[at][3] = rng.pick(&[1, 1, size(&entry) as u8, 0x80, 0xFF]);
            }
            Damage::NamedBefore => {
                let meeting = meeting(rng, entry);
                self.entries.insert(at + 1, meeting);
            }
            Damage::NamedEarlier => {
                let between = free(rng, &self.entries, 1);
                let meeting = meeting(rng, entry);
                self.entries.insert(at + 1, between);
                let behind = rng.within(at + 2..=self.entries.len());
                self.entries.insert(behind, meeting);
            }
            Damage::Records129 => {
                let next = free(rng, &self.entries, 1);
                self.entries.push(next);
            }
            Damage::Records256 => {
                let (one, other) = (rng.within(1..=5) as u8, rng.within(6..=10) as u8);
                let last = rng.pick(&[128, 128, 129, 255]);
                self.entries = vec![[one << 3, 1, 128, 0], [other << 3, 1, last, 0]];
            }
            _ => {
                for _ in 0..2 {
                    let bad = rng.pick(&[
                        [0x09, 1, 1, 0],
                        [0x00, 1, 1, 0],
                        [0x08, 0, 1, 0],
                        [0x08, 2, 1, 0],
                        [0x08, 1, 1, 1],
                    ]);
                    let at = rng.within(0..=self.entries.len());
                    self.entries.insert(at, bad);
                }
            }
        }
    }

    fn damage_records(&mut self, rng: &mut Rng, damage: Damage) {
        let record = self.some_record(rng);
        let objects = self.pieces.len();
        match damage {
            Damage::Record0 => self.some_piece(rng).records = vec![0],
            Damage::RecordBehind => {
                let next = self.count + 1;
                let any = rng.within(next..=255);
                let behind = rng.pick(&[next, any, 255]) as u8;
                self.some_piece(rng).records = vec![behind];
            }
            Damage::Object0 => self.placements.push([record, 0]),
            Damage::ObjectBehind => {
                let any = rng.within(objects + 1..=255);
                let object = rng.pick(&[objects + 1, any, 255]) as u8;
                self.placements.push([record, object]);
            }
            Damage::HalfPlacement => self.half = Some(rng.pick(&[record, record, 0, 255])),
            Damage::Content254 => self.fill(rng, record, 254),
            Damage::TwoRecords => {
                if rng.one_in(2) {
                    self.fill(rng, record, 254);
                } else {
                    self.placements.push([record, 0]);
                }
                let (other, behind) = (self.some_record(rng), self.count as u8 + 1);
                let other = rng.pick(&[other, other, 0, behind]);
                self.placements.push([other, 255]);
            }
            _ => {
                self.fill(rng, record, 254);
                self.pieces.retain(|piece| piece.tag != 0x8C);
                let most = self.content(record) + 253;
                let target = rng.within(255..=most);
                self.fill(rng, record, target);
            }
        }
    }

    /// The layout as bytes; the placements are in any order.
    fn layout(self, rng: &mut Rng) -> Layout {
        let mut placements = self.placements;
        for (piece, number) in self.pieces.iter().zip(1..=u8::MAX) {
            placements.extend(piece.records.iter().map(|&record| [record, number]));
        }
        if !rng.one_in(4) {
            shuffle(rng, &mut placements);
        }
        let mut placements = placements.concat();
        placements.extend(self.half);
        let mut entries = self.entries.concat();
        entries.extend(self.cut_entry);
        Layout {
            objects: self.pieces.into_iter().flat_map(|p| p.bytes).collect(),
            entries,
            placements,
            records_room: self.records_room,
            locator_room: self.locator_room,
            fill: rng.byte(),
        }
    }
}

/// Puts some values into any order.
fn shuffle<T>(rng: &mut Rng, values: &mut [T]) {
    for i in (1..values.len()).rev() {
        values.swap(i, rng.within(0..=i));
    }
}

/// A value that has the length of its row and a wrong digit.
fn wrong_digits(rng: &mut Rng, object: Object) -> Vec<u8> {
    let row = object.row();
    let length = rng.within(usize::from(row.least.max(1))..=usize::from(row.most));
    let mut value = rng.digits(length);
    let at = rng.below(length);
    if row.form == Form::CompressedNumeric && rng.one_in(2) {
        // An F before a digit.
        value[at] = 0xF0 | rng.below(10) as u8;
    } else {
        let letter = rng.within(0xA..=0xE) as u8;
        value[at] = rng.pick(&[letter << 4 | 1, 0x10 | letter]);
    }
    value
}

/// How many records an entry names.
fn size(entry: &[u8; 4]) -> usize {
    usize::from(entry[2] - entry[1]) + 1
}

/// Entries that keep every rule, in any order.
fn apart(rng: &mut Rng, shape: Shape) -> Vec<[u8; 4]> {
    let (count, most, least_records) = match shape {
        Shape::Few => (rng.within(1..=5), 4, 0),
        Shape::Any => (rng.within(1..=62), 40, 0),
        Shape::Entries62 => (62, 3, 0),
        Shape::Records128 => (rng.within(1..=61), 60, 128),
    };
    let mut left = 128;
    let mut sizes: Vec<usize> = (1..=count)
        .map(|number| {
            // One record is left for each entry to come.
            let room = left - (count - number);
            let size = if number == count && least_records == 128 {
                room
            } else {
                rng.within(1..=most.min(room))
            };
            left -= size;
            size
        })
        .collect();
    // The long ones first, so that each finds its place.
    sizes.sort_unstable_by(|a, b| b.cmp(a));
    let mut entries = Vec::new();
    for size in sizes {
        let entry = free(rng, &entries, size);
        entries.push(entry);
    }
    shuffle(rng, &mut entries);
    entries
}

/// An entry of so many records that meets none of those given, often next to one or with the same numbers in
/// another file.
fn free(rng: &mut Rng, entries: &[[u8; 4]], size: usize) -> [u8; 4] {
    let any = |rng: &mut Rng| rng.within(1..=256 - size);
    for _ in 0..20 {
        let [lead, first, last, _] = if entries.is_empty() {
            [8, 1, 1, 0]
        } else {
            rng.pick(entries)
        };
        let other = rng.within(1..=10) as u8;
        let file = rng.pick(&[lead >> 3, other, 1, 10]);
        let first = match rng.below(6) {
            0 => usize::from(last) + 1,
            1 => usize::from(first).saturating_sub(size),
            2 => usize::from(first),
            3 => 1,
            4 => 256 - size,
            _ => any(rng),
        };
        if let Some(entry) = kept_apart(entries, file, first, size) {
            return entry;
        }
    }
    let start = any(rng);
    (0..10 * 255)
        .find_map(|i| kept_apart(entries, (i % 10 + 1) as u8, (start + i / 10) % 256, size))
        .expect("128 records leave room for as many")
}

/// The entry of some records of a file, if the numbers exist and none is named yet.
fn kept_apart(entries: &[[u8; 4]], file: u8, first: usize, size: usize) -> Option<[u8; 4]> {
    let last = first + size - 1;
    let meets = |entry: &[u8; 4]| {
        entry[0] >> 3 == file && usize::from(entry[1]) <= last && usize::from(entry[2]) >= first
    };
    let good = first >= 1 && last <= 255 && !entries.iter().any(meets);
    good.then_some([file << 3, first as u8, last as u8, 0])
}

/// An entry that names at least one record of another.
fn meeting(rng: &mut Rng, [lead, first, last, _]: [u8; 4]) -> [u8; 4] {
    let common = rng.within(usize::from(first)..=usize::from(last)) as u8;
    let common = rng.pick(&[first, last, common]);
    let below = rng.within(0..=3) as u8;
    let above = rng.within(0..=3) as u8;
    let from = common.saturating_sub(below).max(1);
    [lead, from, common.saturating_add(above), 0]
}
