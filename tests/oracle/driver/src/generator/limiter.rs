//! Calls of the limiter and its peers. A scene begins with `new`; its keys are few or many. The calls are answered as they
//! are made, so that readings, tallies and lent words can be chosen where the answers turn.

use std::collections::VecDeque;

use super::Source;
use super::limiter_calls::{Scene, Size};
use super::rng::Rng;
use crate::script::{Session, State};

/// How many pairs a line may list.
const LISTED: u64 = 256;

#[derive(Default)]
pub struct Limiters {
    session: Session,
    scene: Option<Scene>,
    planned: VecDeque<String>,
    left: u64,
    /// Whether the last call was a tick.
    ticked: bool,
}

impl Source for Limiters {
    fn next(&mut self, rng: &mut Rng) -> String {
        while self.planned.is_empty() {
            self.plan(rng);
        }
        let call = self.planned.pop_front().unwrap_or_default();
        self.session.answer(call.as_bytes());
        self.ticked = call.starts_with("tick");
        call
    }
}

impl Limiters {
    /// A call that comes from elsewhere changes the state too.
    pub fn hear(&mut self, call: &str) {
        self.session.answer(call.as_bytes());
    }

    pub fn state(&self) -> &State {
        &self.session.state
    }

    fn plan(&mut self, rng: &mut Rng) {
        match &mut self.scene {
            Some(scene) if self.ticked && scene.is_small() && rng.chance(30) => {
                self.planned.extend(scene.look_around(&self.session.state));
            }
            Some(scene) if self.left > 0 => {
                self.left -= 1;
                self.planned.push_back(scene.next(&self.session.state, rng));
            }
            _ => self.begin(rng),
        }
    }

    /// Begins a scene. What comes before its `new` finds no limiter, or the one of the scene before.
    fn begin(&mut self, rng: &mut Rng) {
        let size = match rng.below(400) {
            0 => Size::Large,
            1..40 => Size::Middle,
            _ => Size::Small,
        };
        let mut scene = Scene::new(size, rng);
        if self.scene.is_none() || rng.chance(5) {
            self.planned.extend(self.scene.is_some().then(|| "newpeers".into()));
            self.planned.extend((0..20).map(|_| scene.next(&self.session.state, rng)));
        }
        self.planned.extend(rng.chance(90).then(|| scene.lend_all()));
        self.planned.extend((0..2).map(|_| scene.new_limiter(rng)));
        if !scene.is_small() {
            self.planned.extend(scene.fill(LISTED));
        }
        self.left = if scene.is_small() { rng.between(20, 500) } else { 100 };
        self.scene = Some(scene);
    }
}
