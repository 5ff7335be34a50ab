//! The panels of a rundown beside the dearest ones of their blurs.
use crate::case::Case;
use crate::forecast::Planned;
use ours::surface;
use reading::BLOCK;

/// A panel of a rundown that is counted which needs more than ours says that any of its blur can.
pub fn dearer(case: &Case, planned: &[Planned]) -> Option<String> {
    planned.iter().find_map(|p| {
        let blur = p.glass()?.blur;
        let most = surface::dearest(case.width, case.height, blur, &mut [0; BLOCK]);
        let bounded = most >> 32 == 0 && p.need as u64 <= most;
        (!bounded).then(|| format!("a panel needs {}, the dearest {most:X}", p.need))
    })
}
