//! Stores with a few bytes changed.

use crate::fuzz::shrink::{lower_bytes, Input};
use crate::port::area::{set_word, word};
use crate::port::rows::SLOT;
use crate::port::store::{is_sound, Areas, HEAD, HELD};
use crate::rng::Rng;
use crate::suites::alone::damaged_stores::{judged, sound};
use crate::support::Check;
use crate::world::calls::Others;
use crate::world::World;

/// The areas' bytes; the seed picks the call that is made beside the check.
#[derive(Clone, Debug)]
pub struct StoreBytes {
    areas: Areas,
    seed: u64,
}

impl StoreBytes {
    pub fn any(rng: &mut Rng) -> Self {
        let (_, mut areas) = sound(rng);
        // Nothing behind the areas.
        areas.log.truncate(areas.capacity() * SLOT);
        areas.held.truncate(HELD);
        areas.head.truncate(HEAD);
        for _ in 0..rng.below(4) {
            damage(rng, &mut areas);
        }
        let seed = rng.next();
        Self { areas, seed }
    }
}

/// A bit flipped, or a word replaced, in a part that is used most often.
fn damage(rng: &mut Rng, areas: &mut Areas) {
    let used = |count: u64, slots: usize| SLOT * (count as usize).saturating_add(1).min(slots);
    let logged = used(word(&areas.head, 0), areas.capacity());
    let held = used(word(&areas.head, 1), 64);
    let (area, used) = match rng.below(3) {
        0 => (&mut areas.log, logged),
        1 => (&mut areas.held, held),
        _ => (&mut areas.head, HEAD),
    };
    let within = if rng.once_in(8) { area.len() } else { used };
    match rng.below(3) {
        0 => area[rng.below(within)] ^= 1 << rng.below(8),
        1 => set_word(area, rng.below(within / 8), rng.edge()),
        _ => {
            let other = word(area, rng.below(within / 8));
            set_word(area, rng.below(within / 8), other);
        }
    }
}

impl Input for StoreBytes {
    fn check(&self) -> Check {
        let mut rng = Rng::for_suite(self.seed, "store");
        let world = World::new(&mut rng);
        let others = Others::new(&mut rng, &world);
        let mut areas = self.areas.clone();
        let number = if is_sound(&areas) { 0 } else { 1 };
        judged(&mut rng, &mut areas, &others, number, || {
            "these areas".into()
        })
    }

    fn smaller(&self) -> Box<dyn Iterator<Item = Self> + '_> {
        let with = |areas: Areas| Self { areas, ..*self };
        let areas = &self.areas;
        let slots = 1..areas.capacity();
        let shorter = slots.map(move |slots| {
            let mut areas = areas.clone();
            areas.log.truncate(slots * SLOT);
            with(areas)
        });
        let logs = lower_bytes(&areas.log).map(move |log| {
            with(Areas {
                log,
                ..areas.clone()
            })
        });
        let helds = lower_bytes(&areas.held).map(move |held| {
            with(Areas {
                held,
                ..areas.clone()
            })
        });
        let heads = lower_bytes(&areas.head).map(move |head| {
            with(Areas {
                head,
                ..areas.clone()
            })
        });
        Box::new(shorter.chain(helds).chain(logs).chain(heads))
    }

    fn shown(&self) -> String {
        let areas = &self.areas;
        let named = [
            ("log", &areas.log),
            ("held", &areas.held),
            ("head", &areas.head),
        ];
        let mut text = format!("a log of {} slots; all words are 0 but\n", areas.capacity());
        for (name, area) in named {
            for i in (0..area.len() / 8).filter(|i| word(area, *i) > 0) {
                text += &format!("     {name} at {}: {:#x}\n", 8 * i, word(area, i));
            }
        }
        text
    }
}
