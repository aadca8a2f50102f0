//! What an export does, where its source has no comment of its own.

const FIELD: &str = "of a packed word; any word has one.";
const SEARCH: &str = "The last place whose key is the wanted one in `place`, and true; or where it would stand, and false. On words that the key \
                      does not sort, the halving of the painter decides.";

/// The text, laid out in lines; none where nothing is known of the name.
pub fn told(name: &str) -> Option<Vec<String>> {
    let (plain, height) = match name.strip_prefix("gpu_") {
        Some(plain) => (plain, " Of tiles four pixels high."),
        None => (name, ""),
    };
    let last_row = if height.is_empty() { "2,046" } else { "8,190" };
    let text = match plain {
        "pack" => "0 and the word in `word`, or 11 where a field is out of its range. The parameters are as wide as the fields' types: a compiler that is given \
                   wider numbers cuts them before the call, and what is cut can't be judged."
            .to_string(),
        "layer_id" => format!("The layer id {FIELD} 0 to 2,097,151."),
        "tile_x" => format!("Tile x {FIELD} -1 to 4,094."),
        "tile_y" => format!("Tile y {FIELD} -1 to {last_row}."),
        "local_x" => format!("Local x {FIELD} 0 to 15."),
        "local_y" => format!("Local y {FIELD} 0 to {}.", if height.is_empty() { 15 } else { 3 }),
        "double_area_multiplier" => format!("The double area's multiplier {FIELD} 0 to 63."),
        "double_area" => "The double area of a packed word: multiplier times cover.".to_string(),
        "cover" => format!("The cover {FIELD} -32 to 31."),
        "does_ascend" => "Whether no word is less than the one before it, by tile y, tile x and layer.".to_string(),
        "is_row" => "Whether the words are a row: they ascend, and each has the stored tile y, which is the row's number plus 1: 1 for row 0.".to_string(),
        "search_last_by_tile_y" => format!("{SEARCH} The key is tile y."),
        "search_last_by_tile_x" => format!("{SEARCH} The key is tile x."),
        "search_last_by_layer_id" => format!("{SEARCH} The key is the layer id."),
        "search_last_by_tile_x_at_least" => format!("{SEARCH} The key is whether tile x is at least `start`."),
        "search_last_by_layer_id_at_least" => format!("{SEARCH} The key is whether the layer id is at least `start`."),
        "search_last_by_tile_y_not_negative" => format!("{SEARCH} The key is whether tile y is 0 or more."),
        "is_empty" => "Whether a tile without segments shows nothing of a layer with this cover from the left, by its fill rule.".to_string(),
        "is_full" => "Whether a tile without segments is wholly covered by a layer with this cover from the left, by its fill rule.".to_string(),
        "color_eq" => "Whether two colours are equal by ==, number by number: both zeros agree, and NaN equals nothing.".to_string(),
        "is_in_crop" => "Whether row `j` is within a crop of the rows `start` up to `end`; without a crop (`is_given` false) every row is.".to_string(),
        _ => return None,
    };
    Some(lines(&(text + height)))
}

/// Lines of at most 112 characters.
fn lines(text: &str) -> Vec<String> {
    let mut lines = vec![String::new()];
    for word in text.split_whitespace() {
        let line = lines.last_mut().expect("there is a line");
        if !line.is_empty() && line.len() + word.len() >= 112 {
            lines.push(word.to_string());
        } else {
            *line += if line.is_empty() { "" } else { " " };
            *line += word;
        }
    }
    lines
}
