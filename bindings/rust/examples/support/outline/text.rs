//! The text of a figure: a line for each thing, words parted by one space.

use std::collections::BTreeMap;

use tile_rows::{BlendMode, Color, Fill, FillRule, Func, Style};

use super::{curve, Fault, Figure, Layer, Point};

/// Outlines that may be put anywhere, and how far the next letter of a word stands.
#[derive(Clone, Debug, Default)]
struct Shape {
    advance: i32,
    outlines: Vec<Vec<Point>>,
}

/// What was read so far.
#[derive(Default)]
struct Reader {
    size: Option<(i16, i32)>,
    shapes: BTreeMap<String, Shape>,
    layers: Vec<Layer>,
    /// The shape that is being read; without one, points are of the last layer.
    shape: Option<String>,
    line: usize,
}

/// The figure of a text.
pub fn read(text: &str) -> Result<Figure, Fault> {
    let mut reader = Reader::default();
    for (at, line) in text.lines().enumerate() {
        reader.line = at + 1;
        reader.take(line).map_err(|told| Fault { line: at + 1, told })?;
    }
    let (rows, tiles) = reader.size.ok_or(Fault { line: 1, told: "no line `plate ROWS TILES`".to_string() })?;
    reader.layers.sort_by_key(|layer| layer.id);
    Ok(Figure { rows, tiles, layers: reader.layers })
}

impl Reader {
    fn take(&mut self, line: &str) -> Result<(), String> {
        if line.is_empty() || line.starts_with('#') {
            return Ok(());
        }
        let (name, rest) = line.split_once(' ').unwrap_or((line, ""));
        match name {
            "plate" => self.plate(rest),
            "shape" => self.begin_shape(rest),
            "layer" => self.begin_layer(rest),
            "from" => self.from(rest),
            "line" => self.line_to(rest),
            "curve" => self.curve_to(rest),
            "put" => self.put(rest),
            "word" => self.word(rest, 0, 1),
            "each" => self.each(rest),
            _ => Err(format!("`{name}` begins no line")),
        }
    }

    fn plate(&mut self, rest: &str) -> Result<(), String> {
        let [rows, tiles] = numbers(rest)?;
        if !(1..=2_047).contains(&rows) || !(1..=4_095).contains(&tiles) {
            return Err("a plate has 1 to 2,047 rows of 1 to 4,095 tiles".to_string());
        }
        self.size = Some((rows as i16, tiles));
        Ok(())
    }

    fn begin_shape(&mut self, rest: &str) -> Result<(), String> {
        let (name, advance) = rest.split_once(' ').ok_or("a shape has a name and an advance")?;
        let [advance] = numbers(advance)?;
        self.shapes.insert(name.to_string(), Shape { advance, outlines: Vec::new() });
        self.shape = Some(name.to_string());
        Ok(())
    }

    fn begin_layer(&mut self, rest: &str) -> Result<(), String> {
        let mut words = rest.splitn(4, ' ');
        let mut next = || words.next().ok_or("a layer has an id, a rule and a kind");
        let (id, rule, kind) = (next()?, next()?, next()?);
        let [id] = numbers(id)?;
        let rule = match rule {
            "nonzero" => FillRule::NonZero,
            "evenodd" => FillRule::EvenOdd,
            _ => return Err("a rule is nonzero or evenodd".to_string()),
        };
        let (func, name) = func_of(kind, words.next().unwrap_or(""))?;
        let id = u32::try_from(id).map_err(|_| "a layer's id is not below 0")?;
        if self.layers.iter().any(|layer| layer.id == id) {
            return Err(format!("layer {id} stands twice"));
        }
        self.shape = None;
        self.layers.push(Layer { id, rule, func, name, outlines: Vec::new(), line: self.line });
        Ok(())
    }

    fn point(&self, x: i32, y: i32) -> Point {
        Point { x, y, line: self.line }
    }

    /// The outlines that points are added to.
    fn outlines(&mut self) -> Result<&mut Vec<Vec<Point>>, String> {
        match &self.shape {
            Some(name) => Ok(&mut self.shapes.get_mut(name).expect("it was begun").outlines),
            None => Ok(&mut self.layers.last_mut().ok_or("no layer or shape was begun")?.outlines),
        }
    }

    fn from(&mut self, rest: &str) -> Result<(), String> {
        let [x, y] = numbers(rest)?;
        let point = self.point(x, y);
        self.outlines()?.push(vec![point]);
        Ok(())
    }

    /// The outline that was begun, and its last point.
    fn begun(&mut self) -> Result<(&mut Vec<Point>, Point), String> {
        let outline = self.outlines()?.last_mut().ok_or("no outline was begun: `from X Y`")?;
        let last = *outline.last().expect("it begins with a point");
        Ok((outline, last))
    }

    fn line_to(&mut self, rest: &str) -> Result<(), String> {
        let [x, y] = numbers(rest)?;
        let point = self.point(x, y);
        self.begun()?.0.push(point);
        Ok(())
    }

    fn curve_to(&mut self, rest: &str) -> Result<(), String> {
        let [control_x, control_y, x, y] = numbers(rest)?;
        let (control, to) = (self.point(control_x, control_y), self.point(x, y));
        let (outline, last) = self.begun()?;
        outline.extend(curve::flattened(last, control, to));
        Ok(())
    }

    fn put(&mut self, rest: &str) -> Result<(), String> {
        let (name, place) = rest.split_once(' ').ok_or("`put NAME X Y`")?;
        let [x, y] = numbers(place)?;
        self.put_shape(name, x, y).map(drop)
    }

    fn shape(&self, name: &str) -> Result<&Shape, String> {
        self.shapes.get(name).ok_or(format!("there is no shape `{name}`"))
    }

    /// Puts a shape, and gives its advance.
    fn put_shape(&mut self, name: &str, x: i32, y: i32) -> Result<i32, String> {
        let shape = self.shape(name)?.clone();
        let moved = |point: &Point| self.point(point.x + x, point.y + y);
        let outlines: Vec<Vec<Point>> =
            shape.outlines.iter().map(|points| points.iter().map(moved).collect()).collect();
        if self.shape.is_some() {
            return Err("a shape is put into a layer".to_string());
        }
        self.outlines()?.extend(outlines);
        Ok(shape.advance)
    }

    /// Of a word's letters those at the places K, K + N, K + 2N and so on: `each K N X Y LETTERS`.
    fn each(&mut self, rest: &str) -> Result<(), String> {
        let mut parts = rest.splitn(3, ' ');
        let mut next = || parts.next().ok_or("`each K N X Y LETTERS`");
        let (first, step, rest) = (next()?, next()?, next()?);
        let ([first], [step]) = (numbers(first)?, numbers(step)?);
        match (usize::try_from(first), usize::try_from(step)) {
            (Ok(first), Ok(step)) if step > 0 => self.word(rest, first, step),
            _ => Err("K is not below 0, and N is above 0".to_string()),
        }
    }

    fn word(&mut self, rest: &str, first: usize, step: usize) -> Result<(), String> {
        let mut parts = rest.splitn(3, ' ');
        let mut next = || parts.next().ok_or("`word X Y LETTERS`");
        let (x, y, letters) = (next()?, next()?, next()?);
        let ([mut x], [y]) = (numbers(x)?, numbers(y)?);
        for (place, letter) in letters.chars().enumerate() {
            let name = if letter == ' ' { "space".to_string() } else { letter.to_string() };
            let is_due = place >= first && (place - first).is_multiple_of(step);
            x += if is_due { self.put_shape(&name, x, y)? } else { self.shape(&name)?.advance };
        }
        Ok(())
    }
}

/// What a layer does, and its name: `draw COLOUR ALPHA NAME`, `clipped COLOUR ALPHA NAME`, `clip SPAN NAME`.
fn func_of(kind: &str, rest: &str) -> Result<(Func, String), String> {
    let (first, rest) = rest.split_once(' ').unwrap_or((rest, ""));
    if kind == "clip" {
        let [span] = numbers(first)?;
        let span = u32::try_from(span).map_err(|_| "a span is not below 0")?;
        return Ok((Func::Clip { span }, rest.to_string()));
    }
    let is_clipped = match kind {
        "draw" => false,
        "clipped" => true,
        _ => return Err("a layer is a draw, a clipped draw or a clip".to_string()),
    };
    let (alpha, name) = rest.split_once(' ').unwrap_or((rest, ""));
    let color = color_of(first, alpha)?;
    let style = Style { is_clipped, fill: Fill::Solid(color), blend_mode: BlendMode::Over };
    Ok((Func::Draw(style), name.to_string()))
}

/// Six hexadecimal digits, and alpha of 256.
fn color_of(digits: &str, alpha: &str) -> Result<Color, String> {
    let is_color = digits.len() == 6 && digits.bytes().all(|byte| byte.is_ascii_hexdigit());
    let [alpha] = numbers(alpha)?;
    if !is_color || !(0..=256).contains(&alpha) {
        return Err("a colour has six hexadecimal digits, and alpha is 0 to 256".to_string());
    }
    let channel = |at: usize| f32::from(u8::from_str_radix(&digits[at..at + 2], 16).expect("digits")) / 255.0;
    Ok(Color { r: channel(0), g: channel(2), b: channel(4), a: alpha as f32 / 256.0 })
}

/// So many whole numbers, within two million of 0.
fn numbers<const N: usize>(text: &str) -> Result<[i32; N], String> {
    let each: Option<Vec<i32>> = text.split(' ').map(|word| word.parse().ok()).collect();
    let all: Option<[i32; N]> = each.and_then(|each| each.try_into().ok());
    let is_small = |all: &[i32; N]| all.iter().all(|number| number.unsigned_abs() <= 2_000_000);
    let plural = if N == 1 { "number" } else { "numbers" };
    all.filter(is_small).ok_or(format!("{N} whole {plural}, each within two million of 0, stand there"))
}
