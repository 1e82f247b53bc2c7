//! The files of a corpus: run files, whole or damaged, and call scripts.

use super::crc::every_entry;
use super::dice::Dice;
use super::download::download_script;
use super::last_tick::{ending, last_tick_script, pose_files, pose_scripts, walk_files, walk_script, WALKS};
use super::ramp::ramp_script;
use super::roles::{register_script, role_script, sweep_scripts};
use super::story::{story, story_of_tags, BASE, DEPTHS_M, DEPTHS_N};
use super::volts::volts_script;
use super::world::{run_record, Op, World};
use std::fs;
use std::path::Path;

/// A run file around its records, with or without a preamble, whole or damaged.
fn file(d: &Dice, records: &[u8], damage: Option<u32>) -> Vec<u8> {
    let mut preamble: Vec<u8> = Vec::new();
    if d.chance(40) {
        preamble = (0..1 + d.below(40)).map(|_| d.roll() as u8).collect();
    }
    preamble.truncate(65_536 - 8 - records.len());
    let before = preamble.len() + records.len();
    let (distance, said) = trailer(before as u32, records.len() as u32 / 8, damage);
    let mut bytes = [&preamble, records, &distance.to_le_bytes(), &said.to_le_bytes()].concat();
    match damage {
        Some(7) => bytes.truncate(before + 7),
        Some(8) => bytes = bytes.split_off(before + 4),
        Some(9) => bytes.clear(),
        _ => {}
    }
    bytes
}

/// The distance and the count that the trailer says, after so many bytes.
fn trailer(before: u32, count: u32, damage: Option<u32>) -> (u32, u32) {
    let distance = 8 * count + 8;
    match damage {
        None | Some(7..=9) => (distance, count),
        Some(0) => (distance + 8, count),
        Some(1) => (distance, count + 1),
        Some(2) => (distance - 8, count),
        Some(3) => (8, 0x2000_0000),
        Some(4) => (16, 0x2000_0001),
        Some(5) => (0, u32::MAX),
        // consistent, but past the file's length by one record
        Some(6) => (8 * (before / 8 + 1) + 8, before / 8 + 1),
        Some(10) => (0, 0),
        Some(_) => (distance + 1, count),
    }
}

/// Nothing but noise, of few ticks.
fn noise(world: &mut World, d: &Dice) {
    for _ in 0..200 {
        let mut r = d.bytes();
        r[0] %= 10;
        if d.chance(50) {
            r[1] %= 6;
            r[6..8].fill(0);
            if r[0] == 5 {
                r[5] = 0;
            }
        }
        world.put(Op::Raw(r), d);
    }
}

/// Every offset of a channel, or of Main, both ways.
fn offsets(world: &mut World, d: &Dice, base: u32) {
    for offset in 0..0x104 {
        if offset != 6 {
            world.put(Op::Write(base + offset, d.of(&[0xFFFF, 0x5555, 3])), d);
        }
        world.put(Op::Read(base + offset), d);
    }
}

/// The run file number `i`.
fn run_file(d: &Dice, i: u32) -> Vec<u8> {
    let mut world = World::run();
    match i % 40 {
        // no records at all
        1 => {}
        2 => noise(&mut world, d),
        3 => offsets(&mut world, d, BASE * (1 + i / 40 % 4)),
        4 => offsets(&mut world, d, 0),
        5 => story(&mut world, d, 1_500),
        // few acts, as only the words that stand at the end show
        8..=15 => story_of_tags(&mut world, d, 12),
        _ => {
            let acts = d.of(&[20, 40, 80, 150]);
            story(&mut world, d, acts);
        }
    }
    if i % 40 > 4 {
        ending(&mut world, d, 1 + i % 4);
    }
    let records = world.bytes;
    match i % 16 {
        6 => file(d, &records, Some(i / 16 % 12)),
        // the longest file there is, and one byte more
        7 if i % 3 == 0 => {
            let tail = file(&Dice::new(0), &records, None);
            let tail = &tail[tail.len() - records.len() - 8..];
            [vec![0xA5; 65_536 + i as usize / 48 % 2 - tail.len()], tail.to_vec()].concat()
        }
        _ => file(d, &records, None),
    }
}

/// The script number `i`.
fn script_file(d: &Dice, i: u32) -> Vec<u8> {
    let (n, m) = match i % 20 {
        0 => (1, 1),
        1 => (d.of(&[0, 33, 1_048_576, 1_048_577, u32::MAX]), d.of(DEPTHS_M)),
        2 => (d.of(DEPTHS_N), d.of(&[0, 65, 8_388_608, 8_388_609, 1 << 29, u32::MAX])),
        _ => (d.of(DEPTHS_N), d.of(DEPTHS_M)),
    };
    // no flags; last and pause 1; VME pause too; all bits
    let mask = d.of(&[0x0000_FFFF, 0x0000_FFFF, 0x8001_FFFF, 0x0010_FFFF, 0x000A_FFFF, u32::MAX, 0]);
    let seed = if d.chance(10) { 0 } else { d.roll() as u32 };
    let header = [n.to_le_bytes(), m.to_le_bytes(), seed.to_le_bytes(), mask.to_le_bytes()].concat();
    let mut world = World::script(header, d.of(&[0, 3, 8, 20]));
    if i % 20 == 1 || i % 20 == 2 {
        // a while on the closed board, then a good opening
        let acts = d.of(&[5, 15, 40]);
        story(&mut world, d, acts);
        let (n, m) = (d.of(DEPTHS_N), d.of(DEPTHS_M));
        world.put(Op::Open { n, m, setpoints: 64 * n, readbacks: 8 * m }, d);
    }
    if i % 20 == 5 || i % 20 == 12 {
        story_of_tags(&mut world, d, 40);
    } else {
        let acts = d.of(&[20, 60, 120, 250]);
        story(&mut world, d, acts);
    }
    let mut bytes = world.bytes;
    if i % 50 == 49 {
        // no script
        match d.below(3) {
            0 => bytes.truncate(15),
            1 => bytes.push(0),
            _ => bytes = vec![0; 65_552],
        }
    }
    bytes
}

/// "Delay FFFFFFh: tick 16,777,225": one tick short of it, then that tick.
fn long_delay() -> Vec<u8> {
    let mut records = vec![
        run_record(3, 1, 0, 0x8000_0005), run_record(1, 0, 0x80A, 3), run_record(1, 0, 0x820, 0x101), run_record(1, 0, 0x840, 0xFF),
        run_record(1, 0, 0x842, 0xFFFF), run_record(8, 1, 0, 1), run_record(4, 0, 0, 1),
    ];
    records.extend([run_record(5, 0, 0, 10_000); 1_677]);
    records.extend([run_record(5, 0, 0, 7_224), run_record(5, 0, 0, 1)]);
    file(&Dice::new(0), &records.concat(), None)
}

/// 66,000 frames, so that the count's high byte (10) and low word (12) show 0001h and 01D0h.
fn high_count() -> Vec<u8> {
    let mut records = vec![
        run_record(3, 1, 0, 0x8000_0005), run_record(1, 0, 0x80A, 3), run_record(8, 1, 0, 1), run_record(1, 0, 0x808, 1),
    ];
    records.extend([run_record(5, 0, 0, 10_000); 66]);
    records.extend([run_record(1, 0, 0x808, 4), run_record(2, 0, 0x810, 0), run_record(2, 0, 0x812, 0)]);
    file(&Dice::new(0), &records.concat(), None)
}

/// Every address below 3000h, a quarter of them to a file: all ones written, then read.
fn whole_map(quarter: u32) -> Vec<u8> {
    let each = |a: u32| [run_record(1, 0, a, 0xFFFF), run_record(2, 0, a, 0)].concat();
    let records: Vec<u8> = (0xC00 * quarter..0xC00 * (quarter + 1)).flat_map(each).collect();
    file(&Dice::new(0), &records, None)
}

/// Files that are the same for any seed.
fn same_files(dir: &Path) -> std::io::Result<()> {
    let whole = |records: &[u8]| file(&Dice::new(0), records, None);
    fs::write(dir.join("delay.run"), long_delay())?;
    fs::write(dir.join("count.run"), high_count())?;
    fs::write(dir.join("crc.run"), whole(&every_entry(World::run())))?;
    let header = [1, 64, 0, 0].map(u32::to_le_bytes).concat();
    fs::write(dir.join("crc.calls"), every_entry(World::script_of_examiner(header)))?;
    fs::write(dir.join("registers.calls"), register_script())?;
    let walks = WALKS.map(|name| (format!("walk-{name}"), walk_script(name)));
    for (name, script) in sweep_scripts().into_iter().chain(pose_scripts()).chain(walks) {
        fs::write(dir.join(format!("{name}.calls")), script)?;
    }
    for (name, records) in pose_files().into_iter().chain(walk_files()) {
        fs::write(dir.join(format!("{name}.run")), whole(&records))?;
    }
    for quarter in 0..4 {
        fs::write(dir.join(format!("map-{quarter}.run")), whole_map(quarter))?;
    }
    Ok(())
}

pub fn generate(dir: &Path, seed: u64, count: u32) -> std::io::Result<()> {
    fs::create_dir_all(dir)?;
    same_files(dir)?;
    for i in 0..count {
        let d = Dice::new(seed ^ (i as u64) << 32 ^ 0x52);
        fs::write(dir.join(format!("{i:04}.run")), run_file(&d, i))?;
        let d = Dice::new(seed ^ (i as u64) << 32 ^ 0x43);
        fs::write(dir.join(format!("{i:04}.calls")), script_file(&d, i))?;
        if i % 10 == 0 {
            let d = Dice::new(seed ^ (i as u64) << 32 ^ 0x4C);
            fs::write(dir.join(format!("ramp-{i:04}.calls")), ramp_script(&d, i / 10))?;
            let d = Dice::new(seed ^ (i as u64) << 32 ^ 0x56);
            fs::write(dir.join(format!("volts-{i:04}.calls")), volts_script(&d, i / 10))?;
        }
        if i % 20 == 0 {
            let d = Dice::new(seed ^ (i as u64) << 32 ^ 0x44);
            fs::write(dir.join(format!("download-{i:04}.calls")), download_script(&d, i / 20))?;
            let d = Dice::new(seed ^ (i as u64) << 32 ^ 0x53);
            fs::write(dir.join(format!("roles-{i:04}.calls")), role_script(&d, i / 20))?;
            let d = Dice::new(seed ^ (i as u64) << 32 ^ 0x57);
            fs::write(dir.join(format!("last-tick-{i:04}.calls")), last_tick_script(&d, i / 20))?;
        }
    }
    Ok(())
}
