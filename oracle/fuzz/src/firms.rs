//! Scripts of one shared table: the two firms in turn, with nobody among them, each with a few more keys than it has room for. Deltas come seldom, so that the second tables of `twins.rs` go far apart.

use script::hex;
use script::table::{BUILDING, METERING, SHARED};

use crate::pieces::{self, Op};
use crate::random::Random;

/// Keys of each firm: more than its sixteen.
const KEYS: u64 = 18;

/// A key of the party, now and then of the other or of neither.
fn key(random: &mut Random, party: u64) -> Vec<u8> {
    let firm = match (random.below(24), party) {
        (0, _) => "x/",
        (1, METERING) | (2.., BUILDING) => "b/",
        _ => "m/",
    };
    format!("{firm}{}", random.below(KEYS)).into_bytes()
}

pub fn turns(mut random: Random) -> Vec<String> {
    let mut lines = vec![format!("kind {} {SHARED}", random.below(3)), "add 7".into(), "add 9".into()];
    if random.once_in(4) {
        let max = u64::MAX - random.below(40);
        let ops = [Op::Node { number: 7, last_gc: 0, from: 0 }, Op::SetMax { max }];
        lines.push(format!("apply {} 0 1", hex(&pieces::delta(&ops))));
    }
    for (party, firm) in [(METERING, "m/"), (BUILDING, "b/")] {
        lines.push(format!("party {party}"));
        let held = random.below(KEYS);
        lines.extend((0..held).map(|i| format!("write 7 {} x31 0 9", hex(format!("{firm}{i}").as_bytes()))));
    }
    let (mut party, mut now) = (BUILDING, 10);
    for _ in 0..random.within(80, 320) {
        if random.once_in(3) {
            party = *random.pick(&[METERING, METERING, METERING, METERING, BUILDING, BUILDING, BUILDING, BUILDING, 0, 3]);
            lines.push(format!("party {party}"));
        }
        now += random.below(3);
        let node = if random.once_in(8) { 9 } else { 7 };
        let key = hex(&key(&mut random, party));
        lines.push(match random.below(32) {
            0..=13 => format!("write {node} {key} {} {} {now}", hex(&pieces::text(&mut random, 2)), random.pick(&[0, 0, 2])),
            14..=17 => format!("delete {node} {key} {now}"),
            18 | 19 => format!("deletettl {node} {key} {now}"),
            20..=23 => format!("get {node} {key}"),
            24 => format!("list {node} x {}", random.pick(&[0, 3, 16, 32])),
            25 | 26 => format!("list {node} {} 32", hex(random.pick(&["m/", "b/", "m", "b", "m/1", "b/1", "x"]).as_bytes())),
            27 => format!("gc {now} {}", random.pick(&[10, 100, 300])),
            28 => format!("beat {node}"),
            29 if random.once_in(6) => format!("remove {node}"),
            30 if random.once_in(3) => {
                let version = 300 + random.below(300);
                let ops = [Op::Node { number: node, last_gc: 0, from: 0 }, Op::SetMax { max: version }];
                format!("apply {} {now} 1", hex(&pieces::delta(&ops)))
            }
            _ => format!("add {node}"),
        });
    }
    lines
}
