//! The rules of the board once more, to be compared with the library. Comments quote the paper of rules, 01, and where
//! they say so the requests that change it, 02. Every call is total: any words, lengths and arguments give its answer.
//!
//! No code is shared with the library, but where 01 is silent its choices are followed, as each word is compared: the
//! layout of the notes (`transient`), the buckets and links of the index (`index`), the phases of the place of an advance and
//! where each step leaves it (`epochs`), and the readings of 01 in docs/DECISIONS.md. A choice that is wrong is wrong on both
//! sides, and no comparison shows it. What the library looks up in the index is found here by a walk over the table (02, No.
//! 6: "each reply and each image equals what the walk gives").
//!
//! The plain board (`reference`) is from 01 and 02 alone, but for what it keeps of the operations that a sync made safe;
//! what a cut within a store can leave (`torn`) is from 02, No. 4, alone.

pub mod batch;
pub mod batch_cases;
pub mod boards;
pub mod calls;
pub mod changes;
pub mod crash;
pub mod damage;
pub mod epochs;
pub mod generator;
pub mod headcount;
pub mod image;
pub mod index;
pub mod index_cases;
pub mod index_damage;
pub mod lister;
pub mod lists;
pub mod queue;
pub mod queue_cases;
pub mod random;
pub mod recovery;
pub mod reference;
pub mod remains;
pub mod resave_cases;
pub mod step_cases;
pub mod store;
pub mod stored;
pub mod torn;
pub mod trace;
pub mod transient;
