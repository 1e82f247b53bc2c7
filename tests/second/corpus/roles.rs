//! Acts around roles (document 02, request 9), of scripts alone: a call by a role, after what lets it do something, and then
//! calls of the examiner's that show whether it did.

mod hidden;
mod openings;
mod refused;
mod scenes;
mod sweep;

pub use self::sweep::{register_script, sweep_scripts};
use self::hidden::hidden;
use self::openings::{changes, openings};
use self::refused::{no_channel, of_main, otherwise};
use self::scenes::scene;
use super::acts::Scene;
use super::dice::Dice;
use super::story::{story_of_roles, BASE, DEPTHS_N};
use super::world::{Op, World};
use crate::frame::frame;
use crate::role::Role;

const OTHERS: [Role; 2] = [Role::Candidate, Role::Watcher];

/// Two readbacks and an end word, and deeper ones.
const DEPTHS: &[u32] = &[8, 3, 5, 7, 13];

/// The script number `i`.
pub fn role_script(d: &Dice, i: u32) -> Vec<u8> {
    let m = DEPTHS[i as usize % DEPTHS.len()];
    let header = [d.of(DEPTHS_N), m, d.roll() as u32, 0xFFFF].map(u32::to_le_bytes).concat();
    let mut world = World::script_of_roles(header);
    if d.chance(60) {
        openings(&mut world, d);
    }
    story_of_roles(&mut world, d, 60);
    world.bytes
}

/// A role, and the channel that its call is about.
#[derive(Clone, Copy)]
pub struct Turn<'a> {
    d: &'a Dice,
    role: Role,
    c: u32,
}

impl Turn<'_> {
    fn at(&self) -> u32 {
        BASE * self.c
    }
    /// By the role.
    fn ask(&self, world: &mut World, op: Op) {
        world.put_as(self.role, op, self.d);
    }
    /// By the examiner.
    fn examine(&self, world: &mut World, op: Op) {
        world.put_as(Role::Examiner, op, self.d);
    }
    /// A word of the current user's active buffer.
    fn word(&self, world: &World, index: u32, word: u32) -> Op {
        let user = world.board().user;
        let active = world.board().peek(self.c as usize - 1).active;
        Op::Set { c: self.c, user, buffer: 1 + (active >> (user - 1) & 1) as u32, index, word }
    }
    /// The channel disarmed, with the shortest period, Frame ID 15h and these words, each with data.
    fn load(&self, world: &mut World, words: &[u32]) {
        self.examine(world, Op::Disarm(self.c));
        self.examine(world, Op::Write(self.at() + 0x0A, 3));
        self.examine(world, Op::Write(self.at() + 0x14, 0x15));
        for (index, word) in words.iter().enumerate() {
            self.examine(world, self.word(world, index as u32, word | self.d.below(65_536)));
        }
    }
    /// The same, and then started: the first word is due on the tenth tick.
    fn start(&self, world: &mut World, words: &[u32]) {
        self.load(world, words);
        self.examine(world, Op::Arm(self.c));
        self.examine(world, Op::Write(self.at() + 8, 1));
    }
    /// A reply with any data.
    fn reply(&self) -> Op {
        Op::Reply(self.c, frame(0x15, self.d.below(65_536) as u16, 0))
    }
    /// A readback that is retired.
    fn retire(&self, world: &mut World) {
        self.start(world, &[0, 0]);
        self.examine(world, Op::Ticks(10));
        self.examine(world, self.reply());
        self.examine(world, Op::Write(self.at() + 8, 4));
    }
}

/// One act of a story.
pub fn role(world: &mut World, s: &Scene) {
    let d = s.d;
    let turn = Turn { d, role: d.of(&OTHERS), c: s.c };
    match d.weighed(&[50, 12, 6, 8, 14, 8, 5]) {
        0 => scene(world, &turn, d.below(scenes::COUNT)),
        1 => otherwise(world, &turn),
        2 => no_channel(world, &turn),
        3 => of_main(world, &turn),
        4 => hidden(world, &turn, d.below(hidden::COUNT)),
        5 => changes(world, &turn),
        _ => openings(world, d),
    }
}
