//! What the safe type promises: the document's first calls, refused images, tables that hold anything, and tables stored as bytes.

use khilzurgee::{block_check, image_check, Answer, Event, Holes, Place, Refusal, Station, Tables, TABLES_LENGTH};

/// The image of the session in full: N 2, events 0 and 1, three modules; its check is 1,906.
fn image() -> [u8; 512] {
    let mut image = [0; 512];
    image[..3].copy_from_slice(&[1, 3, 2]);
    image[8] = 3;
    image[16..18].copy_from_slice(&[2, 40]);
    image[24] = 1;
    image[32..34].copy_from_slice(&[2, 30]);
    image[510..].copy_from_slice(&1906u16.to_le_bytes());
    image
}

/// A call with a code and a number, and nothing else.
fn call(code: u8, number: u8) -> [u8; 16] {
    let mut call = [0; 16];
    call[0] = code;
    call[2] = number;
    call
}

fn answer(refusal: u8, result: u8, running: u8) -> Answer {
    Answer { refusal, result, running }
}

#[test]
fn first_calls() {
    let mut station = Station::load(&image()).expect("a good image");
    assert_eq!(station.tables().directory.modules, 3);
    assert_eq!(station.call(&call(35, 0)), answer(0, 1, 1));
    assert_eq!(station.call(&call(7, 2)), answer(0, 2, 1));
    assert_eq!(station.tables().tasks[2].program, 2);
    assert_eq!(station.call(&call(10, 5)).to_string(), "19 0 1");
}

#[test]
fn refused_images() {
    assert_eq!(image_check(&image()), 0);
    for (wrong, refusal) in [(&image()[..511], 1), (&[][..], 1), (&[0; 512][..], 2)] {
        assert_eq!(image_check(wrong), refusal);
        assert_eq!(Station::load(wrong), Err(refusal));
        assert_eq!(Station::load_lowest(wrong), Err(refusal));
    }
}

#[test]
fn checks_of_blocks() {
    assert_eq!(block_check(&image()), Some(1906));
    assert_eq!(block_check(&[0; 512]), Some(1));
    let mut last = [0; 512];
    last[509] = 255;
    assert_eq!(block_check(&last), Some(64530));
    for length in [0, 510, 511, 513, 1024] {
        assert_eq!(block_check(&[0; 1024][..length]), None);
    }
}

#[test]
fn refused_calls_leave_the_tables() {
    let mut station = Station::load(&image()).expect("a good image");
    let before = station.clone();
    assert_eq!(station.call(&[]), answer(10, 0, 0));
    assert_eq!(station.call(&[32; 17]), answer(10, 0, 0));
    assert_eq!(station.call(&call(6, 0)), answer(11, 0, 0));
    assert_eq!(station, before);
}

/// SIGNAL with its value: 0 is off, 1 is on.
fn signal(number: u8, value: u8) -> [u8; 16] {
    let mut signal = call(9, number);
    signal[3] = value;
    signal
}

/// What is known of every event from 0 on, by TEST EVENT; the tables say the same. Only the first two are defined: all others are refused by 19.
fn tested(station: &mut Station) -> [Option<Event>; 2] {
    for number in 0..=255 {
        let before = *station.tables();
        let answer = station.call(&call(10, number));
        assert_eq!(answer.event(), before.event(number));
        assert_eq!(answer.refused(), if number < 2 { None } else { Some(Refusal::NoEvent) });
        assert_eq!(*station.tables(), before);
    }
    [station.tables().event(0), station.tables().event(1)]
}

/// Document 02, E1: an event nobody has posted isn't off.
#[test]
fn never_signalled_is_not_off() {
    let (off, on, never) = (Some(Event::Off), Some(Event::On), Some(Event::NeverSignalled));
    let mut station = Station::load(&image()).expect("a good image");
    assert_eq!(station.tables().event(0), never);
    assert_eq!(station.call(&signal(0, 1)), answer(11, 0, 0));
    assert_eq!(station.call(&call(35, 0)), answer(0, 1, 1));
    assert_eq!(station.call(&call(10, 0)), answer(0, 3, 1));
    assert_eq!(tested(&mut station), [never, never]);
    // Refused: the value is none, and the event is undefined.
    assert_eq!(station.call(&signal(0, 2)), answer(23, 0, 1));
    assert_eq!(station.call(&signal(2, 1)), answer(19, 0, 1));
    assert_eq!(station.call(&signal(64, 1)), answer(19, 0, 1));
    assert_eq!(tested(&mut station), [never, never]);
    // Only off; then the other one on, and off again.
    assert_eq!(station.call(&signal(0, 0)), answer(0, 1, 1));
    assert_eq!(tested(&mut station), [off, never]);
    assert_eq!(station.call(&signal(1, 1)), answer(0, 1, 1));
    assert_eq!(tested(&mut station), [off, on]);
    assert_eq!(station.call(&signal(1, 0)), answer(0, 1, 1));
    assert_eq!(tested(&mut station), [off, off]);
    // Stored tables know it still; a load begins again.
    let mut stored = Station::from(Tables::from_bytes(station.tables().to_bytes()));
    assert_eq!(tested(&mut stored), [off, off]);
    assert_eq!(Station::load(&image()).expect("a good image").tables().event(0), never);
}

#[test]
fn events_by_result() {
    let known: Vec<Event> = (0..=255).filter_map(Event::of).collect();
    assert_eq!(known, [Event::Off, Event::On, Event::NeverSignalled]);
    assert!(known.iter().all(|event| Event::of(*event as u8) == Some(*event)));
    assert_eq!(known.iter().map(Event::to_string).collect::<Vec<String>>(), ["off", "on", "never signalled"]);
    assert_eq!(answer(0, 3, 1).event(), Some(Event::NeverSignalled));
    assert_eq!(answer(19, 3, 1).event(), None);
    assert_eq!(Tables::from_bytes([0; TABLES_LENGTH]).event(0), None);
}

/// SCHEDULE of a module at a time.
fn schedule_at(module: u8, time: u8) -> [u8; 16] {
    let mut schedule = call(7, module);
    (schedule[1], schedule[4]) = (2, time);
    schedule
}

/// SCHEDULE of a module when an event is on.
fn schedule_when(module: u8, event: u8) -> [u8; 16] {
    let mut schedule = call(7, module);
    (schedule[1], schedule[3], schedule[8]) = (1, 1, 1 << event);
    schedule
}

/// READ of 4 bytes.
fn read() -> [u8; 16] {
    let mut read = call(13, 7);
    read[4] = 4;
    read
}

/// Every block that waits, where and since when. How long follows from the clock; no other block has either, and there is none but 1 to 24.
fn waiting(tables: &Tables) -> Vec<(u8, Place, u32)> {
    let mut all = Vec::new();
    for block in 0..=255 {
        let place = tables.place(block);
        let since = tables.waits_since(block);
        assert_eq!(place.is_some(), (1..=24).contains(&block));
        assert_eq!(since.is_some(), place.is_some_and(Place::waits));
        assert_eq!(tables.waited(block), since.map(|since| tables.clock - since));
        all.extend(place.zip(since).map(|(place, since)| (block, place, since)));
    }
    all
}

/// Plays calls that are accepted, and one that is not. Who waits then; stored tables know it too.
fn waiting_after(station: &mut Station, calls: &[[u8; 16]]) -> Vec<(u8, Place, u32)> {
    for call in calls {
        assert_eq!(station.call(call).refused(), None);
    }
    let all = waiting(station.tables());
    assert_eq!(station.call(&call(16, 0)).refused(), Some(Refusal::NoCode));
    assert_eq!(waiting(&Tables::from_bytes(station.tables().to_bytes())), all);
    all
}

/// Document 02, E6: when did it start to wait?
#[test]
fn since_when_it_waits() {
    let mut station = Station::load(&image()).expect("a good image");
    let mut after = |calls: &[[u8; 16]]| waiting_after(&mut station, calls);
    let (timer, end) = (call(32, 0), call(6, 0));
    let (core, time, event) = ((2, Place::Core, 0), (3, Place::Time, 1), (4, Place::Event, 2));
    // Task 1 runs; 2 finds no room, at clock 0. 3 waits for its time, 4 for an event.
    assert_eq!(after(&[]), []);
    assert_eq!(after(&[call(35, 0), call(7, 2)]), [core]);
    assert_eq!(after(&[timer, schedule_at(2, 4)]), [core, time]);
    assert_eq!(after(&[timer, schedule_when(1, 0)]), [core, time, event]);
    // 1 waits for its request; then it runs again, and links to 5.
    assert_eq!(after(&[timer, read(), call(15, 1)]), [(1, Place::Check, 3), core, time, event]);
    assert_eq!(after(&[call(33, 0)]), [core, time, event]);
    let link = (1, Place::Link, 3);
    assert_eq!(after(&[call(5, 1)]), [link, core, time, event]);
    // The time of 3 has come: it goes on to the core queue, behind 2, and its reading is the new clock.
    let moved = (3, Place::Core, 4);
    assert_eq!(after(&[timer]), [link, core, moved, event]);
    // 4 is ready; 5 ends, and so does 4. Then 1 ends under a read: when that is done, its core goes to 2.
    assert_eq!(after(&[signal(0, 1)]), [link, core, moved]);
    assert_eq!(after(&[end]), [core, moved]);
    assert_eq!(after(&[end, read(), timer, end]), [(1, Place::Ending, 5), core, moved]);
    assert_eq!(after(&[timer]), [(1, Place::Ending, 5), core, moved]);
    assert_eq!(after(&[call(33, 0)]), []);
    let places = [1, 2, 3].map(|block| station.tables().place(block));
    assert_eq!(places, [Place::Free, Place::Running, Place::Ready].map(Some));
}

#[test]
fn places_by_number() {
    let known: Vec<u8> = (0..=255).filter(|number| Place::of(*number).is_some()).collect();
    assert_eq!(known, (0..=8).collect::<Vec<u8>>());
    assert!(known.iter().all(|number| Place::of(*number).map(|place| place as u8) == Some(*number)));
    assert!(Place::ALL.iter().all(|place| place.waits() == (*place as u8 >= 3)));
    assert_eq!(Place::Link.to_string(), "waits in LINK, for its child");
}

/// Tables may hold anything: then nobody waits, or the reading tells nothing.
#[test]
fn readings_of_any_tables() {
    let mut tables = Tables::from_bytes([0xff; TABLES_LENGTH]);
    assert!((0..=255).all(|block| tables.place(block).is_none() && tables.waits_since(block).is_none() && tables.waited(block).is_none()));
    tables.tasks[0].place = Place::Link as u8;
    assert_eq!((tables.place(0), tables.waits_since(0), tables.waited(0)), (None, None, None));
    tables.tasks[24].place = Place::Link as u8;
    assert_eq!((tables.waits_since(24), tables.waited(24)), (Some(u32::MAX), Some(0)));
    tables.clock = 6;
    assert_eq!((tables.waits_since(24), tables.waited(24)), (Some(u32::MAX), None));
    tables.tasks[24].since = 7;
    assert_eq!(tables.waited(24), None);
    tables.tasks[24].since = 6;
    assert_eq!(tables.waited(24), Some(0));
    tables.tasks[24].place = Place::Ready as u8;
    assert_eq!((tables.place(24), tables.waits_since(24), tables.waited(24)), (Some(Place::Ready), None, None));
}

/// An image of N 1 with event 0, and with modules of level 2 that need so many units.
fn image_of(units: &[u8]) -> [u8; 512] {
    let mut image = [0; 512];
    image[..3].copy_from_slice(&[1, units.len() as u8, 1]);
    image[8] = 1;
    for (module, units) in units.iter().enumerate() {
        image[16 + 8 * module..][..2].copy_from_slice(&[2, *units]);
    }
    let check = block_check(&image).expect("512 bytes");
    image[510..].copy_from_slice(&check.to_le_bytes());
    image
}

/// WAIT for event 0.
fn wait() -> [u8; 16] {
    let mut wait = call(8, 0);
    (wait[1], wait[3], wait[8]) = (1, 1, 1);
    wait
}

/// Tasks 1 to 4 have units 0-7, 8-11, 12-15 and 16-63 of level 2. 1 ends, 2 waits and keeps its core, 3 ends: holes of 8 at 0 and of 4 at 12. Then 4 schedules
/// a task of 4 units, block 1, and one of 8, block 3.
fn chopped(mut station: Station) -> Tables {
    for call in [call(32, 0), call(35, 0), call(35, 1), call(35, 1), call(35, 2), call(6, 0), wait(), call(6, 0)] {
        assert_eq!(station.call(&call).refused(), None);
    }
    assert_eq!(station.tables().pools[2], 0xffff_ffff_ffff_0f00);
    assert_eq!(station.call(&call(7, 1)), answer(0, 1, 4));
    assert_eq!(station.call(&call(7, 0)), answer(0, 3, 4));
    assert_eq!(station.tables().place(1), Some(Place::Ready));
    *station.tables()
}

/// Document 02, E8: smallest hole first. By the old rule the short task breaks the long hole, and the long one waits.
#[test]
fn smallest_hole_first() {
    let image = image_of(&[8, 4, 48]);
    let new = chopped(Station::load(&image).expect("a good image"));
    assert_eq!((new.tasks[1].start, new.tasks[3].start, new.pools[2]), (12, 0, u64::MAX));
    assert_eq!((new.place(3), new.grants_by()), (Some(Place::Ready), Some(Holes::SmallestHole)));
    let old = chopped(Station::load_lowest(&image).expect("a good image"));
    assert_eq!((old.tasks[1].start, old.pools[2]), (0, 0xffff_ffff_ffff_0f0f));
    assert_eq!((old.place(3), old.grants_by()), (Some(Place::Core), Some(Holes::LowestStart)));
    assert_eq!(old.waits_since(3), Some(1));
}

/// "The desk keeps the old program": the loads differ in the rule alone, and stored tables keep theirs.
#[test]
fn two_loads() {
    let new = Station::load(&image()).expect("a good image");
    let old = Station::load_lowest(&image()).expect("a good image");
    assert_eq!((new.tables().holes, old.tables().holes), (1, 0));
    assert_eq!(Tables { holes: 1, ..*old.tables() }, *new.tables());
    for station in [new, old] {
        let stored = Tables::from_bytes(station.tables().to_bytes());
        assert_eq!(stored.grants_by(), station.tables().grants_by());
        let mut again = Station::from(stored);
        assert_eq!(again.call(&call(35, 0)), answer(0, 1, 1));
        assert_eq!(again.tables().holes, stored.holes);
    }
}

#[test]
fn holes_by_number() {
    let known: Vec<Holes> = (0..=1000).chain([1 << 32, (1 << 32) + 1, u64::MAX]).filter_map(Holes::of).collect();
    assert_eq!(known, [Holes::LowestStart, Holes::SmallestHole]);
    assert!(known.iter().all(|holes| Holes::of(*holes as u64) == Some(*holes)));
    assert_eq!(known.iter().map(Holes::to_string).collect::<Vec<String>>(), ["lowest start", "smallest hole"]);
    assert_eq!(Tables::from_bytes([0xff; TABLES_LENGTH]).grants_by(), None);
}

/// Document 02, E4: no giving core back under a read.
#[test]
fn no_freemain_under_a_read() {
    let mut station = Station::load(&image()).expect("a good image");
    assert_eq!(station.call(&call(35, 0)), answer(0, 1, 1));
    assert_eq!(station.call(&read()), answer(0, 1, 1));
    let before = station.clone();
    let refused = station.call(&call(1, 0));
    assert_eq!(refused, answer(25, 0, 1));
    assert_eq!(refused.refused(), Some(Refusal::CoreUnderRead));
    assert_eq!(station, before);
    assert_eq!(station.call(&call(33, 0)), answer(0, 1, 1));
    assert_eq!(station.call(&call(1, 0)).refused(), None);
}

#[test]
fn refusals_by_number() {
    let known: Vec<u8> = (0..=255).filter(|number| Refusal::of(*number).is_some()).collect();
    assert_eq!(known, (9..=25).collect::<Vec<u8>>());
    assert!(known.iter().all(|number| Refusal::of(*number).map(|refusal| refusal as u8) == Some(*number)));
    assert_eq!(Refusal::NobodyRuns.to_string(), "a running task is needed and none is");
}

#[test]
fn broken_tables_are_9() {
    let mut tables = *Station::load(&image()).expect("a good image").tables();
    tables.running = 24;
    refused_by_9(tables);
}

fn refused_by_9(tables: Tables) {
    let mut station = Station::from(tables);
    assert_eq!(station.call(&call(32, 0)), answer(9, 0, 0));
    assert_eq!(*station.tables(), tables);
}

/// Document 02, E1: "an event that is on has been signalled, and a signalled one is defined".
#[test]
fn rules_of_events() {
    let loaded = *Station::load(&image()).expect("a good image").tables();
    let with = |on, signalled| Tables { on, signalled, ..loaded };
    for (on, signalled) in [(0, 0), (0, 3), (1, 1), (2, 3), (3, 3)] {
        assert_eq!(Station::from(with(on, signalled)).call(&call(32, 0)), answer(0, 1, 0));
    }
    for (on, signalled) in [(1, 0), (3, 2), (0, 4), (1, 5), (4, 4), (4, 0)] {
        refused_by_9(with(on, signalled));
    }
}

/// Document 02, E6: "0 while free, ready or running", and "never past the clock".
#[test]
fn rules_of_readings() {
    let mut station = Station::load(&image()).expect("a good image");
    // 1 runs, 2 waits for core, 3 is ready.
    for call in [call(32, 0), call(32, 0), call(35, 0), call(7, 2), call(7, 1)] {
        assert_eq!(station.call(&call).refused(), None);
    }
    let with = |block: usize, since| {
        let mut tables = *station.tables();
        tables.tasks[block].since = since;
        tables
    };
    for since in [0, 1, 2] {
        assert_eq!(Station::from(with(2, since)).call(&call(32, 0)), answer(0, 1, 1));
    }
    for (block, since) in [(2, 3), (2, u32::MAX), (0, 1), (1, 1), (3, 2), (4, 1), (24, 2)] {
        refused_by_9(with(block, since));
    }
}

/// "every field in range": holes is 0 or 1.
#[test]
fn rules_of_holes() {
    let loaded = *Station::load(&image()).expect("a good image").tables();
    for holes in [0, 1] {
        assert_eq!(Station::from(Tables { holes, ..loaded }).call(&call(32, 0)), answer(0, 1, 0));
    }
    for holes in [2, 3, 256, 257, 1 << 32, (1 << 32) + 1, u64::MAX] {
        refused_by_9(Tables { holes, ..loaded });
    }
}

#[test]
fn stored_tables_go_on() {
    let mut station = Station::load(&image()).expect("a good image");
    assert_eq!(station.call(&call(35, 0)), answer(0, 1, 1));
    let stored = station.tables().to_bytes();
    let mut other = Station::from(Tables::from_bytes(stored));
    assert_eq!(other, station);
    assert_eq!(other.call(&call(7, 2)), answer(0, 2, 1));
    assert_ne!(other.tables().to_bytes(), stored);
    assert_eq!(station.call(&call(7, 2)), answer(0, 2, 1));
    assert_eq!(other.tables().to_bytes(), station.tables().to_bytes());
}
