//! What a run is asked for: defaults, and how much memory it comes to.
#![forbid(unsafe_code)]

use crate::ffi::{GraphMaxima, LengthsCall, LengthsTold, SearchMaxima, Settings};
use crate::refusal::{accepted, Refusal};

impl GraphMaxima {
    /// The greatest that are allowed.
    pub const GREATEST: Self = Self { vertices: 4096, edges: 8192, nodes: 16384 };
}

impl Default for GraphMaxima {
    /// The greatest.
    fn default() -> Self {
        Self::GREATEST
    }
}

impl SearchMaxima {
    /// The greatest that are allowed.
    pub const GREATEST: Self = Self { path_edges: 4096, active: 64, pushes: 32768 };

    /// The least that are allowed, for a call that makes no search.
    pub(crate) const LEAST: Self = Self { path_edges: 1, active: 1, pushes: 1 };
}

impl Default for SearchMaxima {
    /// The greatest.
    fn default() -> Self {
        Self::GREATEST
    }
}

impl Default for Settings {
    /// k 11 and threshold 3, which are the original's own; minimum quality 10 and no recovery, as in the worked cases of 01; 128 paths and the
    /// greatest maxima, which are the most that the library takes.
    ///
    /// With the greatest maxima nothing is refused that could be answered. Smaller ones save memory and, since a call clears all of its workspace,
    /// time: at the greatest it is lent 13 MB, and a small sample takes up to four times as long.
    fn default() -> Self {
        let (graph, search) = (GraphMaxima::GREATEST, SearchMaxima::GREATEST);
        Self { k: 11, quality: 10, asked: 128, threshold: 3, recovery: false, graph, search }
    }
}

/// The call for lengths: how many elements each slice needs, for those who lend slices of their own to the calls of [`ffi`](crate::ffi).
///
/// ```
/// use punelavoh::{lengths, Refusal, Settings};
///
/// let settings = Settings { k: 25, asked: 5, ..Settings::default() };
/// assert_eq!(lengths(&settings)?.bases, 5 * (25 + 4096));
/// assert_eq!(lengths(&Settings { k: 1, ..settings }), Err(Refusal::K));
/// # Ok::<(), Refusal>(())
/// ```
///
/// # Errors
///
/// [`Refusal::K`] and [`Refusal::Maximum`].
pub fn lengths(settings: &Settings) -> Result<LengthsTold, Refusal> {
    let told = told(settings);
    accepted(told.refusal).map(|()| told)
}

/// What the call for the list must be lent; 0 throughout where lengths are refused.
pub(crate) fn told(settings: &Settings) -> LengthsTold {
    LengthsCall { k: settings.k, paths: settings.asked, graph: settings.graph, search: settings.search }.call()
}

/// What the call for edges and trees must be lent, which is given neither paths asked nor maxima for the search.
pub(crate) fn graph_told(settings: &Settings) -> LengthsTold {
    LengthsCall { k: settings.k, paths: 0, graph: settings.graph, search: SearchMaxima::LEAST }.call()
}
