//! Layer records with revisions: which stand, in any order, and what is refused.

use tile_rows::{BlendMode, Color, Fill, Layer, LayerTable, Refusal, Revision, Revisions, Style};

fn layer(id: u32, alpha: f32) -> Layer {
    let color = Color { r: 0.25, g: 0.5, b: 0.75, a: alpha };
    Layer::draw(id, Style { is_clipped: false, fill: Fill::Solid(color), blend_mode: BlendMode::Over })
}

fn table(records: &[Revision]) -> Result<LayerTable, Refusal> {
    Revisions::new(records).table()
}

fn is_same(table: &LayerTable, layers: &[Layer]) -> bool {
    format!("{table:?}") == format!("{:?}", LayerTable::new(layers))
}

#[test]
fn the_highest_revisions_stand() {
    let old = Revision::of(layer(3, 0.1), 5);
    let records =
        [old, Revision::of(layer(1, 0.2), 2), Revision::withdrawal(3, 9), Revision::of(layer(2, 0.3), u32::MAX)];
    assert!(is_same(&table(&records).unwrap(), &[layer(1, 0.2), layer(2, 0.3)]));
    let again = [&records[..], &[Revision::of(layer(3, 0.4), 10)]].concat();
    assert!(is_same(&table(&again).unwrap(), &[layer(1, 0.2), layer(2, 0.3), layer(3, 0.4)]));
    assert!(table(&[]).unwrap().is_empty());
}

/// Ascending, descending and in between, below and above the numbers at which the walk changes.
#[test]
fn any_order_gives_one_table() {
    for count in [1, 2, 127, 128, 1023, 1024, 5000] {
        let layers: Vec<Layer> = (0..count).map(|id| layer(id, 0.5)).collect();
        let mut records: Vec<Revision> = layers.iter().map(|&layer| Revision::of(layer, 7)).collect();
        records.extend(layers.iter().step_by(3).map(|&old| Revision::of(Layer { is_unchanged: true, ..old }, 6)));
        let mut state = 1u64;
        for _ in 0..3 {
            assert!(is_same(&table(&records).unwrap(), &layers), "{count} layers");
            for at in (1..records.len()).rev() {
                state = state.wrapping_mul(6364136223846793005).wrapping_add(1442695040888963407);
                records.swap(at, (state >> 33) as usize % (at + 1));
            }
        }
        records.sort_by_key(|record| (record.layer, record.revision));
        assert!(is_same(&table(&records).unwrap(), &layers));
        records.reverse();
        assert!(is_same(&table(&records).unwrap(), &layers));
        records.push(records[records.len() / 2]);
        assert_eq!(table(&records).unwrap_err(), Refusal::Revisions);
    }
}

#[test]
fn refusals() {
    let twins = [Revision::of(layer(4, 0.1), 2), Revision::withdrawal(4, 2)];
    assert_eq!(table(&twins).unwrap_err(), Refusal::Revisions);
    assert_eq!(table(&[&twins[..], &[Revision::withdrawal(2097152, 0)]].concat()).unwrap_err(), Refusal::Table);
}
