//! Prints the program's listing for settings.bin, catalogue.bin and frame.bin of the current folder.

use std::fs::read;

fn main() {
    // A missing file counts as empty.
    let [settings, catalogue, frame] =
        ["settings.bin", "catalogue.bin", "frame.bin"].map(|name| read(name).unwrap_or_default());
    print!("{}", second::listing::listing(&settings, &catalogue, &frame));
}
