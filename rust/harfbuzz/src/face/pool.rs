//! The shaper's fonts of a face. The face is parsed once, and its fonts share what was read. Each is lent to one caller at a time,
//! and set to the size and the variations that the caller asks for. Threads that share a face have one each.

use std::sync::{Mutex, OnceLock};
use vukhaso::Face;
use vukhaso::internals::ot_shape::KeptPlans;

/// How a font is set.
#[derive(Clone, PartialEq, Debug, Default)]
pub struct Settings {
    pub units_per_em: u32,
    pub scale: (i32, i32),
    pub ppem: (u32, u32),
    pub points: f32,
    /// The normalized coordinates that are chosen; none where no variations are.
    pub coordinates: Vec<i32>,
}

/// A font with the settings that it has.
struct Set {
    face: Box<Face<'static>>,
    settings: Settings,
    plan: KeptPlans,
}

/// Fonts that nobody uses at the moment, and the face that they are clones of.
pub struct Pool {
    sets: Mutex<Vec<Set>>,
    parsed: OnceLock<Face<'static>>,
}

/// A font without a table, for bytes that are none.
static NO_TABLES: [u8; 12] = [0, 1, 0, 0, 0, 0, 0, 0, 0, 0, 0, 0];

impl Pool {
    pub fn new() -> Self {
        Pool { sets: Mutex::default(), parsed: OnceLock::new() }
    }

    fn sets(&self) -> std::sync::MutexGuard<'_, Vec<Set>> {
        self.sets.lock().unwrap_or_else(std::sync::PoisonError::into_inner)
    }

    pub fn clear(&self) {
        self.sets().clear();
    }

    pub fn with<T>(
        &self,
        bytes: &'static [u8],
        index: u32,
        settings: &Settings,
        ask: impl FnOnce(&mut Face<'static>, &mut KeptPlans) -> T,
    ) -> T {
        let found = {
            let mut sets = self.sets();
            let place = sets.iter().rposition(|set| set.settings == *settings);
            let most = sets.len() < 4;
            match place {
                Some(place) => Some(sets.swap_remove(place)),
                None if most => None,
                None => sets.pop(),
            }
        };
        let mut set = match found {
            Some(set) => set,
            None => {
                let parsed = self.parsed.get_or_init(|| parsed(bytes, index));
                Set { face: Box::new(parsed.clone()), settings: Settings::default(), plan: KeptPlans::new() }
            }
        };
        if set.settings != *settings {
            apply(&mut set.face, settings);
            set.settings = settings.clone();
        }
        let answer = ask(&mut set.face, &mut set.plan);
        self.sets().push(set);
        answer
    }
}

fn parsed(bytes: &'static [u8], index: u32) -> Face<'static> {
    Face::from_slice(bytes, index).unwrap_or_else(|| Face::from_slice(&NO_TABLES, 0).expect("a directory of no tables"))
}

fn apply(face: &mut Face<'static>, settings: &Settings) {
    face.units_per_em = settings.units_per_em.clamp(1, 65535) as u16;
    face.set_scale(settings.scale.0, settings.scale.1);
    let pixels = |ppem: u32| ppem.min(65535) as u16;
    if (face.scale.x_ppem, face.scale.y_ppem) != (pixels(settings.ppem.0), pixels(settings.ppem.1)) {
        face.set_pixels_per_em(pixels(settings.ppem.0), pixels(settings.ppem.1));
    }
    face.set_points_per_em(settings.points);
    if face.coordinates() != settings.coordinates {
        let held = &mut face.variations.coordinates;
        held.clear();
        // Where memory runs out the font keeps fewer coordinates, and the others are those of the default.
        let _ = held.extend_from_slice(&settings.coordinates);
    }
}
