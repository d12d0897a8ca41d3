//! Images and stores that were not left by a run: some that are in order, and many that are not.

use crate::image::{Header, Sizes, CLOCK, FIRST_CLOCK, JOBS, LARGEST, QUEUE};
use crate::index_damage::right_index;
use crate::random::Random;
use crate::store::Store;
use crate::transient::{Layout, LAST_TAKEN, NOTED_SLOTS, PHASE, PLACE_SLOT};

/// A clock near one of its ends, or small.
pub fn any_clock(random: &mut Random) -> u32 {
    match random.below(4) {
        0 => FIRST_CLOCK,
        1 => random.between(LARGEST - 12, LARGEST),
        _ => random.between(FIRST_CLOCK, 12),
    }
}

/// An image without a job, junk in its contents.
pub fn bare_image(random: &mut Random, sizes: Sizes, clock: u32) -> Vec<u32> {
    let mut image = random.junk(sizes.image_words());
    image[0] = sizes.slots as u32;
    image[1] = sizes.words as u32;
    image[CLOCK] = clock;
    for slot in 0..sizes.slots {
        sizes.set_header(&mut image, slot, Header::FREE);
    }
    image
}

/// An image that recovery accepts: each uid has a board, a key of its own there, and versions of different labels. Uids
/// count up or down, and so do order numbers. At most `most_filled` slots are filled; in half of the images some of the
/// others hold remains.
pub fn acceptable_image(random: &mut Random, sizes: Sizes, clock: u32, most_filled: usize) -> Vec<u32> {
    let mut image = bare_image(random, sizes, clock);
    let (has_high_uids, has_high_orders) = (random.chance(20), random.chance(35));
    let last_order = LARGEST - random.between(0, 3);
    let (mut jobs, mut entries) = (0, 0);
    let mut free: Vec<usize> = (0..sizes.slots).collect();
    let filled = random.below(most_filled + 1);
    let mut left = filled;
    for number in 0..filled as u32 {
        let uid = if has_high_uids { LARGEST - number } else { 1 + number };
        let (board, key) = if random.chance(67) {
            jobs += 1;
            (JOBS, jobs)
        } else {
            entries += 1;
            (QUEUE, if has_high_orders { last_order + 1 - entries } else { entries })
        };
        let mut epochs: Vec<u32> = recent_epochs(clock).collect();
        for _ in 0..random.between(1, 4).min(left as u32).min(epochs.len() as u32) {
            let slot = free.swap_remove(random.below(free.len()));
            let epoch = epochs.swap_remove(random.below(epochs.len()));
            let header = Header { kind: random.between(1, 3), epoch, uid, board };
            let value = random.junk(sizes.value_words());
            sizes.set_header(&mut image, slot, header);
            sizes.set_contents(&mut image, slot, key, &value);
            left -= 1;
        }
    }
    if random.chance(50) {
        leave_remains(random, sizes, &mut image);
    }
    image
}

/// What is left of a mark of which only some words were stored, or zeroed: one, two or three of them are 0, most often one.
pub fn torn(random: &mut Random, header: Header) -> Header {
    let zeros = if random.chance(50) { 1 << random.below(4) } else { random.between(1, 14) };
    let [kind, epoch, uid, board] = header.words();
    let word = |bit: u32, word: u32| if zeros >> bit & 1 == 1 { 0 } else { word };
    Header { kind: word(0, kind), epoch: word(1, epoch), uid: word(2, uid), board: word(3, board) }
}

/// Remains in one free slot of three: of a mark like one in the image, or of any mark, a kind above 3 among them.
fn leave_remains(random: &mut Random, sizes: Sizes, image: &mut [u32]) {
    let clock = image[CLOCK];
    let filled: Vec<Header> = sizes.headers(image).into_iter().filter(|header| header.is_filled()).collect();
    for slot in 0..sizes.slots {
        if sizes.header(image, slot) != Header::FREE || !random.chance(33) {
            continue;
        }
        let like = if filled.is_empty() || random.chance(30) { any_mark(random, clock) } else { random.pick(&filled) };
        let epochs = recent_epochs(clock);
        let epoch = match random.below(3) {
            0 => like.epoch,
            1 => like.epoch.saturating_add(1),
            _ => random.between(*epochs.start(), *epochs.end()),
        };
        let remains = torn(random, Header { epoch, ..like });
        sizes.set_header(image, slot, remains);
    }
}

/// A mark of four nonzero words, each of them now and then out of range.
fn any_mark(random: &mut Random, clock: u32) -> Header {
    Header {
        kind: random.pick(&[1, 1, 2, 2, 3, 3, 4, u32::MAX]),
        epoch: if random.chance(80) { random.between(FIRST_CLOCK, clock) } else { wild_epoch(random, clock).max(1) },
        uid: random.pick(&[1, 2, 3, 7, LARGEST, LARGEST + 1]),
        board: random.pick(&[JOBS, JOBS, JOBS, QUEUE, QUEUE, QUEUE + 1, u32::MAX]),
    }
}

/// Tears up to three marks, filled ones where there are any.
fn tear_marks(random: &mut Random, sizes: Sizes, image: &mut [u32]) {
    let filled: Vec<usize> = (0..sizes.slots).filter(|&slot| sizes.header(image, slot).is_filled()).collect();
    for _ in 0..random.between(1, 3) {
        let slot = if filled.is_empty() { random.below(sizes.slots) } else { random.pick(&filled) };
        let whole = if filled.is_empty() { any_mark(random, image[CLOCK]) } else { sizes.header(image, slot) };
        let remains = torn(random, whole);
        sizes.set_header(image, slot, remains);
    }
}

/// Labels that a mark can have at this clock, the latest few.
fn recent_epochs(clock: u32) -> std::ops::RangeInclusive<u32> {
    clock.saturating_sub(6).max(FIRST_CLOCK)..=clock
}

/// Properly filled marks with few uids and few keys, so that equal ones are common. One image of five has any boards, the
/// others one or both; one of six has keys around the last order number; one of three has remains in free slots.
pub fn crowded_image(random: &mut Random, sizes: Sizes, clock: u32) -> Vec<u32> {
    let mut image = bare_image(random, sizes, clock);
    let (most, most_keys) = (2 * sizes.slots as u32, random.pick(&[1, 2]) * sizes.slots as u32);
    let has_any_boards = random.chance(20);
    let boards = random.pick(&[[JOBS, JOBS], [JOBS, QUEUE], [QUEUE, QUEUE]]);
    let least_key = if random.chance(20) { 0 } else { 1 };
    let has_high_keys = random.chance(17);
    for slot in 0..sizes.slots {
        if random.chance(25) {
            continue;
        }
        let epochs = recent_epochs(clock);
        let epoch = random.between(*epochs.start(), *epochs.end());
        let board = if has_any_boards { any_board(random) } else { random.pick(&boards) };
        let header = Header { kind: random.between(1, 3), epoch, uid: random.between(1, most), board };
        let value = random.junk(sizes.value_words());
        let low_key = random.between(least_key, most_keys);
        let key = if has_high_keys && random.chance(50) { last_order(random) } else { low_key };
        sizes.set_header(&mut image, slot, header);
        sizes.set_contents(&mut image, slot, key, &value);
    }
    if random.chance(33) {
        leave_remains(random, sizes, &mut image);
    }
    image
}

/// A key near the last order number, on either side of it.
fn last_order(random: &mut Random) -> u32 {
    random.pick(&[LARGEST - 1, LARGEST, LARGEST, LARGEST + 1, LARGEST + 1, LARGEST + 2])
}

/// The board of jobs, the queue, or neither.
fn any_board(random: &mut Random) -> u32 {
    match random.below(8) {
        0..=3 => JOBS,
        4 | 5 => QUEUE,
        _ => no_board(random),
    }
}

fn no_board(random: &mut Random) -> u32 {
    match random.below(5) {
        0 => 0,
        1 | 2 => QUEUE + 1,
        3 => u32::MAX,
        _ => random.word().max(QUEUE + 1),
    }
}

/// The queue, or no board at all.
fn other_board(random: &mut Random) -> u32 {
    if random.chance(40) {
        QUEUE
    } else {
        no_board(random)
    }
}

/// Puts a few slots on other boards than that of jobs, kept payloads more often than others, and gives most of them the key of one.
pub fn damage_boards(random: &mut Random, sizes: Sizes, image: &mut [u32]) {
    let is_kept_payload = |header: Header| header.is_payload() && header.is_kept(image[CLOCK]);
    let kept: Vec<usize> = (0..sizes.slots).filter(|&slot| is_kept_payload(sizes.header(image, slot))).collect();
    for _ in 0..random.between(1, 3) {
        let slot = if kept.is_empty() || random.chance(40) { random.below(sizes.slots) } else { random.pick(&kept) };
        let header = sizes.header(image, slot);
        sizes.set_header(image, slot, Header { board: other_board(random), ..header });
        if !kept.is_empty() && random.chance(75) {
            image[sizes.contents_line(slot).start] = sizes.key(image, random.pick(&kept));
        }
    }
}

/// Gives a kept entry of the queue, if there is one, an order number at an end of their range or past it.
fn damage_order(random: &mut Random, sizes: Sizes, image: &mut [u32]) {
    let is_kept_entry = |header: Header| header.is_payload() && header.board == QUEUE && header.is_kept(image[CLOCK]);
    let entries: Vec<usize> = (0..sizes.slots).filter(|&slot| is_kept_entry(sizes.header(image, slot))).collect();
    if !entries.is_empty() {
        let order = if random.chance(75) { last_order(random) } else { random.pick(&[0, u32::MAX]) };
        image[sizes.contents_line(random.pick(&entries)).start] = order;
    }
}

/// A word that is likely to be at the edge of some rule.
pub fn edge_word(random: &mut Random, near: u32) -> u32 {
    match random.below(8) {
        0 => 0,
        1 => u32::MAX,
        2 => near.wrapping_sub(1),
        3 => near.wrapping_add(1),
        4 => random.between(LARGEST - 1, LARGEST + 2),
        5 => random.word(),
        _ => random.between(0, 12),
    }
}

/// Replaces one word; those near the start, which hold sizes, headers and notes, more often than others.
pub fn damage_word(random: &mut Random, words: &mut [u32]) {
    if words.is_empty() {
        return;
    }
    let reach = if random.chance(25) { words.len().min(6) } else { words.len() };
    let place = random.below(reach);
    words[place] = edge_word(random, words[place]);
}

/// Makes a slice a little shorter, a little longer, or empty.
pub fn damage_length(random: &mut Random, words: &mut Vec<u32>) {
    match random.below(4) {
        0 => words.clear(),
        1 => words.truncate(words.len().saturating_sub(1)),
        2 => words.truncate(random.below(words.len() + 1)),
        _ => words.extend(random.junk(1)),
    }
}

/// A small image of any of the sorts above.
pub fn any_image(random: &mut Random, sizes: Sizes) -> Vec<u32> {
    let clock = any_clock(random);
    let mut image = match random.below(10) {
        0..=5 => acceptable_image(random, sizes, clock, sizes.slots),
        _ => crowded_image(random, sizes, clock),
    };
    if random.chance(4) {
        image[CLOCK] = random.pick(&[0, 1, LARGEST + 1, u32::MAX]);
    } else if random.chance(20) {
        damage_word(random, &mut image);
    } else if random.chance(15) {
        damage_boards(random, sizes, &mut image);
    } else if random.chance(25) {
        damage_order(random, sizes, &mut image);
    } else if random.chance(15) {
        tear_marks(random, sizes, &mut image);
    }
    image
}

/// A copy with a few words replaced and now and then a wrong length; or a copy in which all is sound but the notes,
/// which say another N, alone or with the T that it leaves for their length; or one with marks on other boards, or torn.
/// Its index is right for its working image, where the store is not refused at entry.
pub fn damaged_store(random: &mut Random, store: &Store) -> Store {
    let mut store = damaged_words(random, store.clone());
    right_index(random, &mut store);
    store
}

fn damaged_words(random: &mut Random, mut store: Store) -> Store {
    let other_notes = notes_of_other_sizes(&store);
    if random.chance(10) && !other_notes.is_empty() {
        store.transient = random.pick(&other_notes);
        if random.chance(50) {
            store.transient[LAST_TAKEN] = random.between(0, 1);
        }
        return store;
    }
    if random.chance(10) && !store.transient.is_empty() {
        store.transient[NOTED_SLOTS] = edge_word(random, store.transient[NOTED_SLOTS]);
        return store;
    }
    if random.chance(20) {
        return store_on_other_boards(random, store);
    }
    if random.chance(25) {
        return store_with_remains(random, store);
    }
    for _ in 0..random.between(1, 3) {
        let slice = random.below(3);
        damage_word(random, store.slices()[slice]);
    }
    if random.chance(10) {
        let slice = random.below(3);
        damage_length(random, store.slices()[slice]);
    }
    store
}

/// Other boards in working, and there some labels above every epoch that can be open: such a slot is no job, and no
/// change of one, whatever its key.
fn store_on_other_boards(random: &mut Random, mut store: Store) -> Store {
    let Ok(entry) = store.enter() else { return store };
    damage_boards(random, entry.sizes, &mut store.working);
    for slot in entry.slots() {
        let header = entry.header(&store, slot);
        if header.is_filled() && header.board != JOBS && random.chance(50) {
            let newer = Header { epoch: entry.clock + 1, ..header };
            entry.sizes.set_header(&mut store.working, slot, newer);
        }
    }
    store
}

/// Torn marks in working, now and then in the lasting image too, some with a label above every epoch that can be open:
/// such a slot is free, whatever its kind and key.
fn store_with_remains(random: &mut Random, mut store: Store) -> Store {
    let Ok(entry) = store.enter() else { return store };
    tear_marks(random, entry.sizes, &mut store.working);
    leave_remains(random, entry.sizes, &mut store.working);
    for slot in entry.slots() {
        let header = entry.header(&store, slot);
        if header.is_remains() && header.epoch != 0 && random.chance(50) {
            let newer = Header { epoch: entry.clock + 1, ..header };
            entry.sizes.set_header(&mut store.working, slot, newer);
        }
    }
    if random.chance(30) {
        tear_marks(random, entry.sizes, &mut store.persistent);
    }
    store
}

/// The notes that format leaves for every other N and T of which they are as long as the store's.
pub fn notes_of_other_sizes(store: &Store) -> Vec<Vec<u32>> {
    let Some(sizes) = Sizes::of(&store.working) else { return Vec::new() };
    let length = store.transient.len();
    let others = (2..=1024).filter(|&slots| slots != sizes.slots);
    others.filter_map(|slots| Some(Layout::of(length, slots)?.blank(1, 1))).collect()
}

/// A store that passes the check at entry and is otherwise arbitrary: headers of any kind, images that have
/// nothing to do with each other, and notes that have nothing to do with either, but for the index of the working image.
pub fn wild_store(random: &mut Random, slots: u32) -> Store {
    let sizes = Sizes::new(slots, random.between(2, 4)).expect("these sizes are in range");
    let layout = Layout::new(sizes.slots, random.below(3) + 1).expect("these sizes are in range");
    let clock = any_clock(random);
    let [next_uid, next_order] = [(); 2].map(|()| random.pick(&[1, 7, 7, LARGEST, LARGEST, LARGEST + 1]));
    let mut transient = layout.blank(next_uid, next_order);
    transient[LAST_TAKEN] = random.between(0, slots - 1);
    transient[PLACE_SLOT] = random.between(0, slots - 1);
    transient[PHASE] = random.pick(&[0, 0, 1, 1, 2, 3, 4, 5, u32::MAX]);
    for thread in 0..layout.threads {
        transient[layout.open(thread)] = random.pick(&[0, clock, clock, clock - 1]);
    }
    for slot in 0..sizes.slots {
        transient[layout.retired(slot)] = if random.chance(60) { 0 } else { wild_epoch(random, clock) };
    }
    // bits of slots that the board does not have among them
    for list in [0, 1] {
        for word in &mut transient[layout.waiting(list)] {
            let any = random.word();
            *word = random.pick(&[0, 0, 1, 0x8000_0000, u32::MAX, any, any]);
        }
    }
    let [working, persistent] = [(); 2].map(|()| wild_image(random, sizes, clock));
    let mut store = Store { working, persistent, transient };
    right_index(random, &mut store);
    store
}

/// A store of many slots, few of which are due and few of which wait, at an end of the board or of sixteen or 32 slots or
/// anywhere: an advance passes over the others. Bits that are no slot's are set too.
pub fn sparse_store(random: &mut Random) -> Store {
    let slots = random.pick(&[17, 31, 32, 33, 47, 48, 49, 63, 64, 65, 95, 100, 1023, 1024]);
    let mut store = wild_store(random, slots);
    let entry = store.enter().expect("a wild store passes the check");
    for slot in entry.slots() {
        let header = Header { kind: random.between(0, 2), epoch: entry.clock, uid: 1, board: JOBS };
        entry.sizes.set_header(&mut store.working, slot, header);
        store.transient[entry.layout.retired(slot)] = 0;
    }
    for thread in 0..entry.layout.threads {
        store.transient[entry.layout.open(thread)] = 0;
    }
    let list = entry.layout.waiting(entry.clock - 1);
    store.transient[list.clone()].fill(0);
    for _ in 0..random.below(5) {
        let (any, any_bit) = (random.between(0, slots - 1), random.below(1024));
        let slot = random.pick(&[0, 15, 16, 31, 32, 33, slots - 1, slots - 1, any]).min(slots - 1) as usize;
        let kind = random.between(1, 3);
        let epoch = if kind == 3 { entry.clock.saturating_sub(random.between(2, 4)) } else { entry.clock };
        entry.sizes.set_header(&mut store.working, slot, Header { kind, epoch, uid: 1, board: JOBS });
        let retirements = [0, entry.clock - 1, entry.clock - 2, entry.clock - 2];
        store.transient[entry.layout.retired(slot)] = random.pick(&retirements);
        let bit = random.pick(&[slot, any_bit]);
        store.transient[list.start + bit / 32] |= 1 << (bit % 32);
    }
    right_index(random, &mut store);
    store
}

/// Half of these images are calm: no label is above an epoch that can be open, so that queue calls get past 9. Where
/// there are few keys, several slots have one. A third of the marks is torn, and one of ten is free.
fn wild_image(random: &mut Random, sizes: Sizes, clock: u32) -> Vec<u32> {
    let mut image = bare_image(random, sizes, clock);
    let calm = random.pick(&[None, None, Some(clock), Some(clock - 1)]);
    let (most, keys) = (random.pick(&[JOBS, QUEUE]), random.pick(&[1, 4]));
    for slot in 0..sizes.slots {
        let kind = random.pick(&[1, 1, 1, 1, 2, 2, 2, 2, 3, 3, 4, u32::MAX]);
        let board = if random.chance(50) { most } else { any_board(random) };
        let epoch = match calm {
            Some(latest) => latest.saturating_sub(random.pick(&[0, 0, 1, 2])),
            None => wild_epoch(random, clock),
        };
        let uid = if random.chance(80) { random.between(1, 12) } else { edge_word(random, 1) };
        let whole = Header { kind, epoch, uid, board };
        let header = match random.below(10) {
            0 => Header::FREE,
            1..=3 => torn(random, whole),
            _ => whole,
        };
        let value = random.junk(sizes.value_words());
        let key = if random.chance(90) { random.between(0, keys) } else { last_order(random) };
        sizes.set_header(&mut image, slot, header);
        sizes.set_contents(&mut image, slot, key, &value);
    }
    image
}

/// A label close to the clock on either side, or one for which a sum or difference with it would wrap.
fn wild_epoch(random: &mut Random, clock: u32) -> u32 {
    match random.below(10) {
        0 => random.pick(&[0, 1, u32::MAX, u32::MAX - 1, u32::MAX - 2]),
        1 => clock.wrapping_add(random.between(1, 2)),
        _ => clock.wrapping_sub(random.between(0, 4)),
    }
}
