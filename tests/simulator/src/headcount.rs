//! What the head count prints (02, No. 1): "how many slots are free, surviving, kept but not surviving, and filled but too new."

use crate::image::Header;
use crate::lister::accepted_image;

/// "Each of the four figures is counted by its own rule": in the order in which they are printed. A mark is free by the rule
/// of 02, No. 4: any of its four words is 0.
pub fn figures(headers: &[Header], clock: u32, survivors: &[usize]) -> [usize; 4] {
    let count = |rule: &dyn Fn(usize, Header) -> bool| {
        headers.iter().enumerate().filter(|&(slot, &header)| rule(slot, header)).count()
    };
    [
        count(&|_, header| !header.is_whole()),
        count(&|slot, _| survivors.contains(&slot)),
        count(&|slot, header| header.is_kept(clock) && !survivors.contains(&slot)),
        count(&|_, header| header.is_filled() && u64::from(header.epoch) + 2 > u64::from(clock)),
    ]
}

/// "prints `free F surviving S kept K new M total T`", with the lister's refusals.
pub fn head_count(bytes: &[u8]) -> String {
    match accepted_image(bytes) {
        Err(refusal) => format!("refused {refusal}\n"),
        Ok((image, accepted)) => {
            let headers = accepted.sizes.headers(&image);
            let [free, surviving, kept, new] = figures(&headers, accepted.clock, &accepted.survivors);
            let total = free + surviving + kept + new;
            format!("free {free} surviving {surviving} kept {kept} new {new} total {total}\n")
        }
    }
}
