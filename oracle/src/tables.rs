//! Tables by lot: names of layers, conducting and via map, via stack, each with its odd cases.

use crate::job::{Layout, Via};
use crate::random::Random;

/// The most records of a table.
pub const RECORDS: usize = 64;

/// Logical names: some begin alike, some differ in case, some are next to a marker, two are as long as a name may be.
const CONDUCTORS: [&str; 20] = [
    "m1",
    "m10",
    "m1b",
    "M1",
    "a1",
    "b1",
    "nw",
    "psd",
    "poly",
    "m2",
    "Z",
    "!",
    "~",
    "xseed_m1",
    "block_m1",
    "m1_pro",
    "Marker",
    "drawin",
    "a_name_of_thirty-two_bytes_____A",
    "a_name_of_thirty-two_bytes_____B",
];
const CUTS: [&str; 4] = ["cut", "cut2", "con", "Cut"];
const MARKERS: [&str; 6] = [
    "seed_m1",
    "BLOCK_m1",
    "m1_prop",
    "m1marker",
    "m1drawing",
    "marker",
];
const STRANGERS: [&str; 3] = ["text", "label", "zz"];

const PHYSICALS: [&str; 3] = ["M1", "M2", "RX"];
const CONTACTS: [&str; 3] = ["V1", "V2", "V3"];

/// The layer numbers of polygons. Not all of them have a name.
pub const NUMBERS: [i16; 20] = [
    1,
    2,
    3,
    4,
    5,
    6,
    7,
    8,
    9,
    10,
    11,
    12,
    40,
    63,
    255,
    0,
    -1,
    -7,
    i16::MAX,
    i16::MIN,
];

/// Layer numbers that no polygon has.
pub const FILLING: std::ops::Range<i16> = 1000..1064;

/// Some of a list, from `low` to `high` of them, in any order.
fn some(random: &mut Random, list: &[&str], low: usize, high: usize) -> Vec<String> {
    let mut list: Vec<String> = list.iter().map(|name| name.to_string()).collect();
    random.shuffle(&mut list);
    list.truncate(random.count(low, high));
    list
}

/// A layout with its tables and nothing drawn.
pub fn tables(random: &mut Random) -> Layout {
    let conductors = some(random, &CONDUCTORS, 2, 6);
    let fewest = if random.once_in(8) { 0 } else { 1 };
    let cuts = some(random, &CUTS, fewest, 3);
    let markers = some(random, &MARKERS, 0, 1);
    let strangers = some(random, &STRANGERS, 0, 2);
    let fewest = if random.once_in(8) { 1 } else { 2 };
    let physicals = some(random, &PHYSICALS, fewest, 3);

    let mut layout = Layout::default();
    for name in conductors.iter().chain(&markers) {
        let physical = if random.once_in(16) {
            random.pick(&CONTACTS).to_string()
        } else {
            random.pick(&physicals).clone()
        };
        layout.conducting.push((name.clone(), physical));
    }
    for name in &cuts {
        let physical = if random.once_in(12) {
            random.pick(&physicals).clone()
        } else {
            random.pick(&CONTACTS[..2]).to_string()
        };
        layout.via.push((name.clone(), physical));
        if random.once_in(10) {
            layout
                .conducting
                .push((name.clone(), random.pick(&physicals).clone()));
        }
    }
    layout.stack = stack(random, &physicals);
    let names: Vec<String> = [conductors, cuts, markers, strangers].concat();
    layout.layers = layers(random, &names);
    if random.once_in(16) {
        fill(random, &mut layout);
    }
    random.shuffle(&mut layout.conducting);
    random.shuffle(&mut layout.via);
    random.shuffle(&mut layout.stack);
    random.shuffle(&mut layout.layers);
    layout
}

/// As a rule a record for each contact, for a conductor now and then; some names twice.
fn stack(random: &mut Random, physicals: &[String]) -> Vec<Via> {
    let contacts = CONTACTS.iter().map(|name| (name.to_string(), 15));
    let conductors = physicals.iter().map(|name| (name.clone(), 4));
    let mut stack = Vec::new();
    for (name, of_16) in contacts.chain(conductors) {
        if random.below(16) < of_16 {
            stack.push(record(random, &name, physicals));
        }
        if random.once_in(10) {
            stack.push(record(random, &name, physicals));
        }
    }
    stack
}

/// A record of the stack, as a rule with both layers; else one is absent or unknown.
fn record(random: &mut Random, name: &str, physicals: &[String]) -> Via {
    let side = |random: &mut Random| match random.below(20) {
        0 => None,
        1 => Some("nothing".to_string()),
        _ if physicals.is_empty() || random.once_in(20) => {
            Some(random.pick(&PHYSICALS).to_string())
        }
        _ => Some(random.pick(physicals).clone()),
    };
    Via {
        name: name.to_string(),
        bottom: side(random),
        top: side(random),
    }
}

/// A number for each name, for some names two.
fn layers(random: &mut Random, names: &[String]) -> Vec<(i16, String)> {
    let mut numbers = NUMBERS.to_vec();
    random.shuffle(&mut numbers);
    let mut layers = Vec::new();
    for name in names {
        let times = if random.once_in(4) { 2 } else { 1 };
        for _ in 0..times {
            // Two numbers stay unnamed, for polygons that no layer knows.
            if numbers.len() > 2 {
                layers.extend(numbers.pop().map(|number| (number, name.clone())));
            }
        }
    }
    layers
}

/// Fills the tables to their last record with names that no polygon uses.
fn fill(random: &mut Random, layout: &mut Layout) {
    for i in layout.layers.len()..RECORDS {
        layout
            .layers
            .push((FILLING.start + i as i16, format!("l{}", i)));
    }
    for i in layout.conducting.len()..RECORDS {
        layout
            .conducting
            .push((format!("c{}", i), random.pick(&PHYSICALS).to_string()));
    }
    for i in layout.via.len()..RECORDS {
        layout
            .via
            .push((format!("v{}", i), random.pick(&CONTACTS).to_string()));
    }
    for i in layout.stack.len()..RECORDS {
        layout.stack.push(record(random, &format!("s{}", i), &[]));
    }
}

/// A contact's layer number, and those that it joins.
#[derive(Clone)]
pub struct Weld {
    pub contact: i16,
    pub bottom: Vec<i16>,
    pub top: Vec<i16>,
}

/// The welds that the tables allow, those without a layer to land on left out.
pub fn welds(layout: &Layout) -> Vec<Weld> {
    let find = |map: &[(String, String)], name: &str| {
        map.iter()
            .find(|(key, _)| key == name)
            .map(|(_, value)| value.clone())
    };
    let physical = |name: &str| find(&layout.conducting, name).or_else(|| find(&layout.via, name));
    let on = |side: &Option<String>| -> Vec<i16> {
        (layout.layers.iter())
            .filter(|(_, name)| {
                find(&layout.via, name).is_none() && side.is_some() && physical(name) == *side
            })
            .map(|(number, _)| *number)
            .collect()
    };
    let mut welds = Vec::new();
    for (contact, name) in &layout.layers {
        let record = layout
            .stack
            .iter()
            .find(|via| Some(&via.name) == physical(name).as_ref());
        if let (Some(via), Some(_)) = (record, find(&layout.via, name)) {
            welds.push(Weld {
                contact: *contact,
                bottom: on(&via.bottom),
                top: on(&via.top),
            });
        }
    }
    welds.retain(|weld| !weld.bottom.is_empty() && !weld.top.is_empty());
    welds
}
