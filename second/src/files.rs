//! The files of a folder: settings.bin and frame.bin, as every program reads them.

use crate::answer::Refusal;
use crate::chain::Settings;
use crate::lens::Plate;

/// The programs take no larger frames.
const MOST_SAMPLES: i128 = 32_000;

/// Settings and samples, where the two files have the lengths they must have.
pub fn read(settings: &[u8], frame: &[u8]) -> Result<(Settings, Vec<u16>), Refusal> {
    if settings.len() != 32 {
        return Err(Refusal::new(1));
    }
    let number = |from: usize, bytes: usize| {
        settings[from..from + bytes].iter().fold(0, |n, &b| 256 * n + i128::from(b))
    };
    let settings = Settings {
        width: number(0, 2),
        height: number(2, 2),
        threshold: number(4, 2),
        needed: number(6, 2),
        cx: number(8, 4),
        cy: number(12, 4),
        lens: Plate::of_focal(number(16, 4) as i64),
        tolerance: number(24, 8),
    };
    let sides_fit = [settings.width, settings.height].iter().all(|side| (7..=1_024).contains(side));
    if !sides_fit {
        return Err(Refusal::new(1));
    }
    let samples = settings.width * settings.height;
    if frame.len() as i128 != 2 * samples || samples > MOST_SAMPLES {
        return Err(Refusal::new(2));
    }
    Ok((settings, frame.chunks(2).map(|word| u16::from_be_bytes([word[0], word[1]])).collect()))
}
