//! The random images: were some sort of board rare among them, comparisons with the library would say little about it.

use simulator::boards::as_jobs;
use simulator::damage::any_image;
use simulator::image::{Header, Name, Sizes, CLOCK, JOBS, LARGEST, QUEUE};
use simulator::random::Random;
use simulator::recovery::{judge, Accepted};

/// How many marks or images there were of each sort.
#[derive(Default, Debug)]
struct Seen {
    filled_on_another: u32,
    uid_on_two_boards: u32,
    key_on_two_boards: u32,
    only_boards_wrong: u32,
    only_order_numbers_wrong: u32,
    last_order_numbers: u32,
    surviving_entries: u32,
    accepted: u32,
    accepted_with_key_on_two_boards: u32,
    refusals: [u32; 5],
}

impl Seen {
    fn note(&mut self, image: &[u32]) {
        match judge(image) {
            Ok(Accepted { sizes, survivors, .. }) => self.note_accepted(image, sizes, &survivors),
            Err(refusal) => self.refusals[refusal as usize] += 1,
        }
        let Some(sizes) = Sizes::of(image) else { return };
        let is_on_another = |header: &Header| header.is_filled() && ![JOBS, QUEUE].contains(&header.board);
        self.filled_on_another += sizes.headers(image).iter().filter(|header| is_on_another(header)).count() as u32;
        self.note_kept(sizes, image);
        let refused_with_3 = judge(image).err() == Some(3);
        self.only_boards_wrong += u32::from(refused_with_3 && judge(&as_jobs(image)).is_ok());
        self.only_order_numbers_wrong += u32::from(refused_with_3 && judge(&with_low_keys(image)).is_ok());
    }

    fn note_accepted(&mut self, image: &[u32], sizes: Sizes, survivors: &[usize]) {
        self.accepted += 1;
        let names = survivors.iter().map(|&slot| sizes.name(image, slot));
        let (queue, jobs): (Vec<Name>, Vec<Name>) = names.partition(|&(board, _)| board == QUEUE);
        self.surviving_entries += queue.len() as u32;
        self.last_order_numbers += u32::from(queue.contains(&(QUEUE, LARGEST)));
        self.accepted_with_key_on_two_boards += u32::from(queue.iter().any(|&(_, key)| jobs.contains(&(JOBS, key))));
    }

    /// One uid, and one key of payloads, on two boards of kept marks.
    fn note_kept(&mut self, sizes: Sizes, image: &[u32]) {
        let headers = sizes.headers(image);
        let kept: Vec<usize> = (0..sizes.slots).filter(|&slot| headers[slot].is_kept(image[CLOCK])).collect();
        let pair_of = |equal: &dyn Fn(usize, usize) -> bool| {
            let differ = |&one: &usize, &other: &usize| headers[one].board != headers[other].board && equal(one, other);
            kept.iter().any(|one| kept.iter().any(|other| differ(one, other)))
        };
        let uids = |one: usize, other: usize| headers[one].uid == headers[other].uid;
        let keys = |one: usize, other: usize| {
            let payloads = headers[one].is_payload() && headers[other].is_payload();
            payloads && !uids(one, other) && sizes.key(image, one) == sizes.key(image, other)
        };
        self.uid_on_two_boards += u32::from(pair_of(&uids));
        self.key_on_two_boards += u32::from(pair_of(&keys));
    }
}

/// The image with no key above the last order number, and equal keys only where there were some.
fn with_low_keys(image: &[u32]) -> Vec<u32> {
    let mut image = image.to_vec();
    let Some(sizes) = Sizes::of(&image) else { return image };
    for slot in 0..sizes.slots {
        let key = sizes.key(&image, slot);
        if key > LARGEST {
            image[sizes.contents_line(slot).start] = key - 1_000_000;
        }
    }
    image
}

#[test]
fn no_sort_of_board_is_rare_in_random_images() {
    let mut random = Random::new(11);
    let mut seen = Seen::default();
    for _ in 0..20_000 {
        let sizes = Sizes::new(random.between(2, 8), random.between(2, 4)).expect("these sizes are in range");
        seen.note(&any_image(&mut random, sizes));
    }
    println!("seed 11, 20000 images, {seen:?}");
    let marks = [seen.filled_on_another, seen.surviving_entries];
    let wrong = [seen.uid_on_two_boards, seen.key_on_two_boards, seen.only_boards_wrong, seen.only_order_numbers_wrong];
    let right = [seen.last_order_numbers, seen.accepted_with_key_on_two_boards];
    assert!(marks.iter().chain(&wrong).chain(&right).all(|&times| times >= 200), "{seen:?}");
    assert!(seen.accepted >= 5000 && seen.refusals[1..].iter().all(|&times| times >= 200), "{seen:?}");
}
