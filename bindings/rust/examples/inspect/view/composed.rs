//! A tile as people would see it: its draws in order, each by its coverages, cut by the clip that really cuts it. It is
//! no blending of the display stage: colours are mixed as bytes, by `Over`, above white.

use tile_rows::{Func, Plane, Refusal};

use super::{
    super::support::driven::{Entry, Tile},
    colors,
    input::Input,
};

/// What the painter does with a listed layer.
#[derive(Clone, Copy, Debug, PartialEq, Eq)]
pub enum Cut {
    /// A draw that no clip cuts.
    Free,
    /// A draw within the mask of this clip.
    By(u32),
    /// A clipped draw that needs a clip, and the painter has none any more: it paints nothing.
    Lacks,
    /// A clip: the last layer that the painter's clip reaches after it.
    Clip(u32),
    /// Not shown.
    Hidden,
}

/// For each listed layer, ascending, what cuts it: the painter's rule. A second clip takes over the mask, and keeps the
/// end of the first while that one lives. A clipped draw within the span of a full clip, which is masked off, needs none.
pub fn cuts(input: &Input, tile: &Tile) -> Vec<Cut> {
    let mut alive: Option<(u32, u32)> = None;
    let mut free_up_to: Option<u32> = None;
    let mut cuts = Vec::new();
    for Entry { listed, .. } in &tile.list {
        let id = listed.id;
        let layer = input.known(id).map(|known| known.layer);
        if let Some(Func::Clip { span }) = layer.map(|layer| layer.func) {
            let rule = layer.map(|layer| layer.rule).unwrap_or_default();
            let is_full = !listed.has_segments && listed.cover.is_full(rule);
            free_up_to = is_full.then_some(id + span);
        }
        if !listed.is_shown() {
            cuts.push(Cut::Hidden);
            continue;
        }
        alive = alive.filter(|&(_, last)| last >= id);
        cuts.push(match layer.map(|layer| layer.func) {
            Some(Func::Clip { span }) => {
                let last = alive.map_or(id + span, |(_, last)| last);
                alive = Some((id, last));
                Cut::Clip(last)
            }
            Some(Func::Draw(style)) if style.is_clipped && free_up_to.is_none_or(|last| id > last) => {
                alive.map_or(Cut::Lacks, |(mask, _)| Cut::By(mask))
            }
            _ => Cut::Free,
        });
    }
    cuts
}

/// A layer's coverages: those that were painted, or what its segments and cover give, where it was not.
pub fn plane_of(input: &Input, tile: &Tile, entry: &Entry) -> Result<Plane, Refusal> {
    if let Some((_, plane)) = &entry.painted {
        return Ok(plane.clone());
    }
    let (id, mut plane) = (entry.listed.id, Plane::new());
    let rule = input.known(id).map(|known| known.layer.rule).unwrap_or_default();
    plane.paint_part(&input.part(tile.tile, id), &entry.listed.cover, rule)?;
    Ok(plane)
}

/// The colour of a layer: its figure's, or the page's.
pub fn color_of(input: &Input, id: u32) -> [u8; 3] {
    let given = input.known(id).and_then(|known| known.color);
    given.unwrap_or_else(|| colors::at(input.place(id)))
}

/// The 256 pixels of a tile, row by row, over white.
pub fn pixels(input: &Input, tile: &Tile) -> Vec<[u8; 3]> {
    let mut shown = vec![[255.0_f32; 3]; 256];
    let mut masks: Vec<(u32, Plane)> = Vec::new();
    for (entry, cut) in tile.list.iter().zip(cuts(input, tile)) {
        let id = entry.listed.id;
        let plane = plane_of(input, tile, entry).expect("the tile was worked, so its covers are in range");
        match cut {
            Cut::Hidden | Cut::Lacks => {}
            Cut::Clip(_) => masks.push((id, plane)),
            Cut::Free => mix(&mut shown, input, id, &plane, None),
            Cut::By(clip) => {
                let mask = masks.iter().find(|(id, _)| *id == clip).map(|(_, mask)| mask);
                mix(&mut shown, input, id, &plane, mask);
            }
        }
    }
    shown.into_iter().map(|pixel| pixel.map(|number| number.round() as u8)).collect()
}

fn mix(shown: &mut [[f32; 3]], input: &Input, id: u32, plane: &Plane, mask: Option<&Plane>) {
    let color = color_of(input, id).map(f32::from);
    let alpha = match input.known(id).map(|known| known.layer.func) {
        Some(Func::Draw(style)) if style.fill.code() == 0 => style.fill.color().a,
        _ => 1.0,
    };
    for (place, pixel) in shown.iter_mut().enumerate() {
        let (column, row) = (place % 16, place / 16);
        let part = alpha * plane.at(column, row) * mask.map_or(1.0, |mask| mask.at(column, row));
        for (channel, &new) in pixel.iter_mut().zip(&color) {
            *channel += (new - *channel) * part;
        }
    }
}
