//! Sizes of what is lent, and what the numbers mean.
//!
//! Made by tests/library/interface from the sources of the crates. Changes belong there.

/// The version of the archive that this crate goes with: 10,000 × major + 100 × minor + patch.
pub const VERSION: u32 = 200;
/// Words of a limiter.
pub const LIMITER_WORDS: usize = 16;
/// Words of the peers.
pub const PEERS_WORDS: usize = 3;
/// Words of a meter.
pub const GCRA_WORDS: usize = 4;
/// Words of a hot set.
pub const HOT_SET_WORDS: usize = 3;
/// Words of an estimator.
pub const DEMAND_WORDS: usize = 6;
/// Words of a record in the table of keys.
pub const KEY_WORDS: usize = 22;
/// Words of a record in the table of hot keys, and of an entry of a hot set.
pub const HOT_WORDS: usize = 6;
/// Words of a record in the table of shadows.
pub const SHADOW_WORDS: usize = 4;
/// The largest size of the table of keys.
pub const MAX_KEYS: usize = 4096;
/// The largest size of the hot set.
pub const MAX_HOT: usize = 64;
/// Words of the table of peers.
pub const PEER_TABLE_SIZE: usize = 384;
/// Words of the table of snapshot keys.
pub const SNAPSHOT_KEYS_SIZE: usize = 8192;
/// Words of the table of contested keys.
pub const CONTESTED_SIZE: usize = 49152;
/// The most keys of a report.
pub const MAX_DEMAND_KEYS: usize = 64;
/// The most bytes of an image.
pub const LARGEST_IMAGE: usize = 1372566;
/// Where the last tick's time stands in a limiter's words, 0 if there was none.
pub const LAST_TICK: usize = 12;

/// Bytes of an image without records.
pub(crate) const IMAGE_FIXED: usize = 118;
/// Bytes of a record in an image, of the three tables of a limiter and the three of its peers.
pub(crate) const IMAGE_RECORDS: [usize; 6] = [179, 51, 35, 99, 35, 51];

/// What is so of a call that gets this number.
pub(crate) const QUESTIONS: [&str; 17] = [
    "the call is answered",
    "a lent buffer is too short for the configured sizes",
    "the lent state, or the quota, meter, estimator or hot set handed in alone, could not stand in a valid image",
    "a rate is not finite or not above 0",
    "a burst is not 1 to 4,194,303",
    "alpha is not in (0, 1], or the floor factor not in [0, 1]",
    "the hot set size is not 1 to 64 and at most max_tracked_keys, or that is above the table size, or that above 4,096",
    "the cluster size is not 1 to 65,535",
    "the key is not tracked and the table is full",
    "a counter that the call raises would not stay within 64 bits",
    "the report has more than 64 keys",
    "a demand is not finite with a clear sign bit",
    "the peer is not known and 32 are",
    "the image is not valid",
    "the word to unpack has a unit code of 3 or a burst of 0",
    "the window is longer than 2^62 ns",
    "the output does not fit",
];
/// What is said of any other.
pub(crate) const NO_QUESTION: &str = "there is no such question";
