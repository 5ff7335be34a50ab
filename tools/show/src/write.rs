//! From layers back to a show's text.
use crate::{describe, torn, values};
use tiglostrema::Layer;

/// The text of a rundown, or of the layers of one, in the order of their blocks; every field is given but those that hold
/// by themselves. [`make`](crate::make) of it gives the same bytes, or, where the blocks do not ascend, the same blocks in
/// ascending priority.
///
/// A layer whose table does not suit its bezel, which [`stored`](crate::stored) may give, has a comment above it that
/// says so: `make` refuses the text until that table is mended.
///
/// ```
/// let made = show::make("layer 9 copy; source 1; at 4 -5; alpha 200")?;
/// let text = show::write(&made.rundown);
/// assert_eq!(
///     text,
///     "layer 9 copy\n    source 1\n    at 4 -5\n    radius 0\n    alpha 200\n    dim 0\n"
/// );
/// assert_eq!(show::make(&text)?.rundown, made.rundown);
/// # Ok::<(), Vec<show::Problem>>(())
/// ```
pub fn write(layers: impl IntoIterator<Item = (u16, Layer)>) -> String {
    let mut out = String::new();
    for (priority, layer) in layers {
        out.extend(comment(priority, &layer));
        out.push_str(&format!("layer {priority} {}\n", describe::kind(&layer)));
        let fields = values::of(&layer);
        let given = fields.iter().filter(|field| !field.is_implied());
        out.extend(given.map(|field| format!("    {}\n", field.words())));
    }
    match out.is_empty() {
        true => "// a show without layers\n".to_owned(),
        false => out,
    }
}

/// What stands above a layer whose table does not suit its bezel.
fn comment(priority: u16, layer: &Layer) -> Option<String> {
    let why = torn(layer)?;
    Some(format!(
        "// the table of layer {priority} does not suit its bezel: {why}\n"
    ))
}
