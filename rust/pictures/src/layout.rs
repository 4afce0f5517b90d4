//! The layout of a table: the bytes of a record, and the order of sections.

use crate::svg::{
    Anchor, Area, Drawing, Font, Paint, FALSE, PLAIN, REMARK, STRONG, TITLE, TOOL, WORDS,
};
use barfigol_format::limits::{
    MOST_ARRAYS, MOST_ELEMENTS, MOST_RECORDS, MOST_SLOTS, MOST_VARIABLES,
};
use barfigol_format::words::grouped;
use barfigol_format::{bytes_of, show, ROW_BYTES};
use barfigol_tables::placement::placement;

const WIDTH: i32 = 1000;
const HEIGHT: i32 = 440;
/// The width of a byte, and where the first one is drawn.
const BYTE: i32 = 72;
const FIRST_BYTE: i32 = (WIDTH - BYTE * ROW_BYTES as i32) / 2;
/// The node of the placement model whose record is drawn.
const NODE: usize = 6;

/// Numbers of a record, and nodes.
const NUMBERS: Paint = Paint::new("#eee5ff", "#6639ba");
/// The kind, and constraints.
const KIND: Paint = Paint::new("#fff3c4", "#9a6700");

/// The fields of a record: name, how it is kept, bytes and paint.
const FIELDS: [(&str, &str, i32, Paint); 5] = [
    ("mark", "2 ASCII letters", 2, TOOL),
    ("kind", "1 byte", 1, KIND),
    ("aux", "always 0", 1, FALSE),
    ("x", "signed 32 bits, low byte first", 4, NUMBERS),
    ("y", "signed 32 bits, low byte first", 4, NUMBERS),
];

/// The picture.
pub fn picture() -> String {
    let mut drawing = Drawing::new(WIDTH, HEIGHT, "The layout of a table");
    let title = format!("A record: {ROW_BYTES} bytes");
    drawing.text((24, 36), Anchor::Start, TITLE, &title);
    record(&mut drawing, 56);
    let most = grouped(MOST_RECORDS as u64);
    let title = format!("A table: its sections in order, {most} records at most");
    drawing.text((24, 268), Anchor::Start, TITLE, &title);
    sections(&mut drawing, 288);
    drawing.finish()
}

/// The fields, the bytes of an example, and what they mean.
fn record(drawing: &mut Drawing, y: i32) {
    let mut x = FIRST_BYTE;
    for (name, kept, bytes, paint) in FIELDS {
        let area = Area {
            x,
            y,
            width: BYTE * bytes,
            height: 52,
        };
        drawing.note(area, paint, &[(STRONG, name), (REMARK, kept)]);
        x += area.width;
    }
    let table = placement();
    let number = table.first_node_record() + NODE;
    let row = table.rows()[number];
    for (place, byte) in bytes_of(&[row]).into_iter().enumerate() {
        let area = Area {
            x: FIRST_BYTE + BYTE * place as i32,
            y: y + 60,
            width: BYTE,
            height: 36,
        };
        drawing.note(area, PLAIN, &[(WORDS, &format!("{byte:02x}"))]);
        let below = (area.x + BYTE / 2, area.y + area.height + 18);
        drawing.text(below, Anchor::Middle, REMARK, &place.to_string());
    }
    let shown = show(&table.bytes());
    let note = shown
        .lines()
        .nth(number)
        .and_then(|line| line.split_once("  "));
    let meaning = note.map_or("", |(_, note)| note.trim_start());
    let text = format!("These are the bytes of the line {row}, which means {meaning}.");
    drawing.text((FIRST_BYTE, y + 150), Anchor::Start, WORDS, &text);
}

/// A section: its mark, what it declares, how many of them, what its fields
/// hold, and its paint.
struct Section(&'static str, &'static str, String, String, Paint);

fn all_sections() -> [Section; 6] {
    let any = || String::from("any number");
    let up_to = |most: usize| format!("0 to {}", grouped(most as u64));
    let one = String::from("exactly 1");
    let elements = format!("1 to {} EL each", grouped(MOST_ELEMENTS as u64));
    let [variables, slots, arrays] = [MOST_VARIABLES, MOST_SLOTS, MOST_ARRAYS].map(up_to);
    [
        Section("HD", "head", one, "x: how many records".into(), PLAIN),
        Section(
            "VR",
            "variables",
            variables,
            "x..y: the domain".into(),
            TOOL,
        ),
        Section("SL", "slots", slots, "x..y: the range".into(), TOOL),
        Section("AR EL ..", "arrays", arrays, elements, TOOL),
        Section("ND", "nodes", any(), "x, y: by kind".into(), NUMBERS),
        Section("CN", "constraints", any(), "x: its node".into(), KIND),
    ]
}

/// The sections, from the first to the last.
fn sections(drawing: &mut Drawing, y: i32) {
    let mut last: Option<Area> = None;
    for (place, section) in all_sections().iter().enumerate() {
        let Section(mark, what, count, fields, paint) = section;
        let area = Area {
            x: 19 + 164 * place as i32,
            y,
            width: 142,
            height: 112,
        };
        let mark_font = Font { size: 16, ..STRONG };
        let lines = [
            (mark_font, *mark),
            (WORDS, *what),
            (REMARK, count.as_str()),
            (REMARK, fields.as_str()),
        ];
        drawing.note(area, *paint, &lines);
        if let Some(last) = last {
            drawing.arrow(last.right(), area.left());
        }
        last = Some(area);
    }
}
