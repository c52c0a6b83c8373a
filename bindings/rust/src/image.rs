//! The saved image of a limiter and its peers.

use crate::limiter::{self, Limiter};
use crate::peer_demand::{self, PeerDemand};
use crate::refused::{answered, or_panic, Refused};
use crate::sizes::{
    HOT_WORDS, IMAGE_FIXED, IMAGE_RECORDS, KEY_WORDS, LIMITER_WORDS, MAX_HOT, MAX_KEYS, PEERS_WORDS, SHADOW_WORDS,
};
use crate::words;

impl Limiter {
    /// How many bytes the image of this limiter and these peers has.
    pub fn image_size(&self, peers: &PeerDemand) -> usize {
        let counts = self.words[13..].iter().chain(&peers.words);
        counts.zip(IMAGE_RECORDS).fold(IMAGE_FIXED, |size, (&count, bytes)| size + count as usize * bytes)
    }

    /// Writes the image at the front of `out`: how many bytes.
    pub fn try_save_into(&self, peers: &PeerDemand, out: &mut [u8]) -> Result<usize, Refused> {
        let (here, there) = (&self.tables, &peers.tables);
        let mut answer = [0];
        answered(words::save(
            &self.words,
            &here.keys,
            &here.hot,
            &here.shadows,
            &peers.words,
            &there.peers,
            &there.snapshot_keys,
            &there.contested,
            out,
            &mut answer,
        ))?;
        Ok(answer[0] as usize)
    }

    /// The image of this limiter and these peers.
    pub fn try_save(&self, peers: &PeerDemand) -> Result<Vec<u8>, Refused> {
        let mut image = vec![0; self.image_size(peers)];
        let size = self.try_save_into(peers, &mut image)?;
        image.truncate(size);
        Ok(image)
    }

    /// The same, or a panic where it is refused.
    #[track_caller]
    pub fn save(&self, peers: &PeerDemand) -> Vec<u8> {
        or_panic(self.try_save(peers))
    }

    /// The limiter and the peers that an image was saved of.
    pub fn try_load(image: &[u8]) -> Result<(Self, PeerDemand), Refused> {
        let largest = limiter::Tables::for_sizes(MAX_KEYS, MAX_HOT);
        let (mut limiter, peers) = Self::try_load_in(image, largest, peer_demand::Tables::whole())?;
        let (table_size, hot_set_size) = (limiter.table_size(), limiter.config().hot_set_size);
        let tables = limiter.tables_mut();
        for (table, size) in [
            (&mut tables.keys, KEY_WORDS * table_size),
            (&mut tables.hot, HOT_WORDS * hot_set_size),
            (&mut tables.shadows, SHADOW_WORDS * table_size),
        ] {
            table.truncate(size);
            table.shrink_to_fit();
        }
        Ok((limiter, peers))
    }

    /// The same, or a panic where it is refused.
    #[track_caller]
    pub fn load(image: &[u8]) -> (Self, PeerDemand) {
        or_panic(Self::try_load(image))
    }

    /// The same in tables of the caller's, which may hold anything.
    pub fn try_load_in(
        image: &[u8],
        mut here: limiter::Tables,
        mut there: peer_demand::Tables,
    ) -> Result<(Self, PeerDemand), Refused> {
        let (mut limiter, mut peers) = ([0; LIMITER_WORDS], [0; PEERS_WORDS]);
        answered(words::load(
            image,
            &mut limiter,
            &mut here.keys,
            &mut here.hot,
            &mut here.shadows,
            &mut peers,
            &mut there.peers,
            &mut there.snapshot_keys,
            &mut there.contested,
        ))?;
        Ok((Limiter::of_words(limiter, here), PeerDemand { words: peers, tables: there }))
    }
}
