//! Random sequences of begin, messages and searches, chained over one session and one store, which is
//! made one of the other edition and back now and then.

use reference::session::{Session, OPEN, WAITING};
use reference::store::{encode, EDITION_1};

use crate::both::{Both, Step, World};
use crate::faults::{unsound, FAULTS};
use crate::generator::{Action, Generator};
use crate::layout::{other, LENGTHS};
use crate::library::REMEMBERED_AT;
use crate::model::bytes_of;
use crate::stores::Names;

/// One sequence from its own seed.
pub fn sequence(both: &mut Both, seed: u64, steps: usize) -> Step {
    let mut generator = Generator::new(seed);
    let mut world = start(&mut generator);
    for _ in 0..steps {
        let odd = generator.random.below(50);
        match odd {
            0 => step_with_unsound_store(both, &mut generator, &mut world)?,
            1 => step_with_store_length(both, &mut generator, &mut world)?,
            2 if generator.random.one_in(4) => spoil(&mut generator, &mut world),
            3 if generator.random.one_in(8) => {
                step_with_other_edition(both, &mut generator, &mut world)?
            }
            4 if generator.random.one_in(2) => step_converted(both, &mut generator, &mut world)?,
            5 if generator.random.one_in(2) => convert_odd(both, &mut generator, &world)?,
            _ => step(both, &mut generator, &mut world)?,
        }
    }
    Ok(())
}

/// A sound store and a session of any kind, whose flag of a remembered number is often neither 0
/// nor 1.
pub fn start(generator: &mut Generator) -> World {
    let entries = generator.names.sound(&mut generator.random);
    let any = generator.random.u32();
    let session = Session {
        state: generator.random.pick(&[OPEN, OPEN, WAITING]),
        own: generator.names.own,
        peer: generator.names.centre,
        next: generator.random.u16(),
        expected: generator.random.u16(),
        remembered: true,
        transaction: generator.random.pick(&[0, any, any]),
    };
    let mut session = match generator.random.below(4) {
        0 => [0; 32],
        1 => generator.random.array(),
        _ => bytes_of(&session),
    };
    if session[REMEMBERED_AT] == 1 {
        session[REMEMBERED_AT] = generator.random.pick(&[0, 0, 1, 2, 255]);
    }
    World {
        session,
        store: encode(generator.edition(), &entries),
    }
}

fn step(both: &mut Both, generator: &mut Generator, world: &mut World) -> Step {
    let action = generator.action(world);
    act(both, generator, world, action)
}

fn act(both: &mut Both, generator: &mut Generator, world: &mut World, action: Action) -> Step {
    let out = generator.output();
    match action {
        Action::Begin { identities, number } => {
            both.begin(world, identities, number, &out)?;
        }
        Action::Message(message) => {
            both.receive(world, &message, &out)?;
        }
        Action::Find { peer, t } => {
            both.find(&world.store, peer, t)?;
        }
    }
    Ok(())
}

/// One call on an unsound store; the store before it comes back afterwards.
fn step_with_unsound_store(both: &mut Both, generator: &mut Generator, world: &mut World) -> Step {
    let fault = generator.random.pick(&FAULTS);
    let entries = generator.names.sound(&mut generator.random);
    let edition = generator.edition();
    let store = unsound(&mut generator.random, edition, &entries, fault);
    step_with(both, generator, world, store)
}

/// One call on a sound store of the other edition.
fn step_with_other_edition(both: &mut Both, generator: &mut Generator, world: &mut World) -> Step {
    let edition = other(generator.edition());
    let names = Names::new(edition, &mut generator.random);
    let entries = names.sound(&mut generator.random);
    step_with(both, generator, world, encode(edition, &entries))
}

/// One call on a store that is a byte too short or too long, empty, or of the other edition's
/// length.
fn step_with_store_length(both: &mut Both, generator: &mut Generator, world: &mut World) -> Step {
    let mut store = world.store.clone();
    let length = if generator.random.one_in(3) {
        other(generator.edition()).length()
    } else {
        generator.random.pick(&LENGTHS)
    };
    store.resize(length, 0);
    step_with(both, generator, world, store)
}

/// The store made one of the other edition where there is room, one call on it, and back where there
/// still is.
fn step_converted(both: &mut Both, generator: &mut Generator, world: &mut World) -> Step {
    let source = generator.edition();
    let target = other(source);
    let to = generator.random.bytes(target.length());
    let (answer, store) = both.convert(target, &world.store, &to)?;
    if answer != 0 {
        return Ok(());
    }
    let session = world.session;
    let mut converted = World { session, store };
    step(both, generator, &mut converted)?;
    world.session = converted.session;
    let (answer, store) = both.convert(source, &converted.store, &world.store)?;
    if answer == 0 {
        world.store = store;
    }
    Ok(())
}

/// A conversion of an unsound store, or of the one at hand between buffers of other lengths.
fn convert_odd(both: &mut Both, generator: &mut Generator, world: &World) -> Step {
    let source = generator.edition();
    let target = other(source);
    if !generator.random.one_in(4) {
        let from = unsound_source(generator);
        both.convert(target, &from, &vec![0xa5; target.length()])?;
        return Ok(());
    }
    let random = &mut generator.random;
    let lengths = [source.length(), target.length(), random.pick(&LENGTHS)];
    let (mut from, mut to) = (world.store.clone(), world.store.clone());
    from.resize(random.pick(&lengths), 0);
    to.resize(random.pick(&lengths), 0);
    both.convert(random.pick(&[source, target]), &from, &to)?;
    Ok(())
}

/// Of any counts of keys and peers, or full or nearly so.
fn unsound_source(generator: &mut Generator) -> Vec<u8> {
    let (edition, random) = (generator.edition(), &mut generator.random);
    let entries = if random.one_in(2) {
        let most_peers = random.pick(&[EDITION_1.peers_max, edition.peers_max]);
        let keys = random.between(1, edition.keys_max);
        let peers = random.between(0, most_peers);
        generator.names.counted(random, keys, peers)
    } else {
        generator.names.sound(random)
    };
    let fault = random.pick(&FAULTS);
    unsound(random, edition, &entries, fault)
}

fn step_with(
    both: &mut Both,
    generator: &mut Generator,
    world: &mut World,
    store: Vec<u8>,
) -> Step {
    let action = generator.action(world);
    let mut other = World {
        session: world.session,
        store,
    };
    act(both, generator, &mut other, action)?;
    world.session = other.session;
    Ok(())
}

/// Puts another byte somewhere in the session, its state and unused bytes among them. The state is
/// waiting now and then, over what is remembered.
fn spoil(generator: &mut Generator, world: &mut World) {
    let random = &mut generator.random;
    let at = random.pick(&[0, 1, 2, 3, 4, 5, 9, 13, 14, 17, 18, 31]);
    let any = random.u8();
    world.session[at] = match at {
        0 => random.pick(&[WAITING, OPEN, any]),
        _ => any,
    };
}
