//! draw LOG OUT.ppm: the plate of a log, as a Portable Pixmap: the picture after its last line. examples/c/draw.c is the same program.

use sporedrift::{HEIGHT, Line, Unit, WIDTH, lines, parse_line};
use std::error::Error;

fn main() -> Result<(), Box<dyn Error>> {
    let mut words = std::env::args_os().skip(1);
    let (Some(log), Some(picture), None) = (words.next(), words.next(), words.next()) else {
        return Err("usage: draw LOG OUT.ppm".into());
    };
    let log = std::fs::read(log)?;
    let mut unit = Unit::post_boot();
    for (number, line) in lines(&log).enumerate() {
        let line = parse_line(line).map_err(|no| format!("line {}: {no}", number + 1))?;
        match line {
            Line::Writes(writes) => unit.play_all(&writes, |_command| ()),
            Line::Screen(screen) => drop(unit.update_screen(&screen)?),
            _ => return Err(format!("line {}: a line of a newer log", number + 1).into()),
        }
    }
    let mut bytes = format!("P6\n{WIDTH} {HEIGHT}\n255\n").into_bytes();
    bytes.extend(unit.picture().iter().flat_map(|word| word.to_rgb8()));
    Ok(std::fs::write(picture, bytes)?)
}
