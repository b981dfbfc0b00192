//! What two sounds are made of: the strength of each frequency over the whole of each, and how much alike these are. For a player of another make, whose samples are
//! approximations, nothing nearer can be asked for.

use crate::riff::{self, Sound};

/// Samples of a window: at 44,100 samples a second 10.8 Hz from one frequency to the next.
const WINDOW: usize = 4096;

/// Frequencies below this one, in steps, are left out: one sound stands on its level at rest, the other is freed from it by a filter.
const LOWEST: usize = 5;

/// The Fourier transform of a number of values that is a power of two, in place: (real, imaginary).
fn transform(values: &mut [(f64, f64)]) {
    let count = values.len();
    if count == 1 {
        return;
    }
    let (mut even, mut odd): (Vec<_>, Vec<_>) = values.chunks_exact(2).map(|two| (two[0], two[1])).unzip();
    transform(&mut even);
    transform(&mut odd);
    for k in 0..count / 2 {
        let (sine, cosine) = (-std::f64::consts::TAU * k as f64 / count as f64).sin_cos();
        let (a, b) = (even[k], odd[k]);
        let turned = (b.0 * cosine - b.1 * sine, b.0 * sine + b.1 * cosine);
        values[k] = (a.0 + turned.0, a.1 + turned.1);
        values[k + count / 2] = (a.0 - turned.0, a.1 - turned.1);
    }
}

/// The strength of each frequency of a window: its samples fade in and out, so that its edges add none.
fn strengths(samples: &[f64]) -> Vec<f64> {
    let fade = |at: usize| 0.5 - 0.5 * (std::f64::consts::TAU * at as f64 / WINDOW as f64).cos();
    let mut values: Vec<_> = samples.iter().enumerate().map(|(at, sample)| (sample * fade(at), 0.0)).collect();
    transform(&mut values);
    values[..WINDOW / 2].iter().map(|(real, imaginary)| real.hypot(*imaginary)).collect()
}

/// The strength of each frequency of a sound of one channel, summed over its windows.
fn spectrum(sound: &Sound) -> Vec<f64> {
    let samples: Vec<f64> =
        sound.data.chunks_exact(2).map(|two| f64::from(i16::from_le_bytes([two[0], two[1]]))).collect();
    let mut sum = vec![0.0; WINDOW / 2];
    for window in samples.chunks_exact(WINDOW) {
        sum.iter_mut().zip(strengths(window)).for_each(|(sum, strength)| *sum += strength);
    }
    sum
}

/// The cosine of the angle between two lists: 1 where one is a multiple of the other.
fn cosine(a: &[f64], b: &[f64]) -> f64 {
    let product = |a: &[f64], b: &[f64]| a.iter().zip(b).map(|(x, y)| x * y).sum::<f64>();
    product(a, b) / (product(a, a) * product(b, b)).sqrt()
}

/// The frequencies, in steps, that are stronger than both beside them: the strongest first, so many.
fn peaks(spectrum: &[f64], count: usize) -> Vec<usize> {
    let mut found: Vec<usize> = (LOWEST..spectrum.len() - 1)
        .filter(|&k| spectrum[k] > spectrum[k - 1] && spectrum[k] >= spectrum[k + 1])
        .collect();
    found.sort_by(|&a, &b| spectrum[b].total_cmp(&spectrum[a]));
    found.truncate(count);
    found
}

/// How many of the strongest frequencies of one spectrum are to be found among how many of the other's: players of another make weigh the channels a little
/// otherwise, so the order isn't the same.
const STRONGEST: usize = 12;
const AMONG: usize = 24;

/// The strongest frequencies of a spectrum that are none of another's, one step more or less.
fn missing(spectrum: &[f64], other: &[f64]) -> Vec<usize> {
    let among = peaks(other, AMONG);
    let mut strongest = peaks(spectrum, STRONGEST);
    strongest.retain(|k| among.iter().all(|other| other.abs_diff(*k) > 1));
    strongest
}

/// Holds two sounds to each other: the cosine of their spectra is at least `least`, and the strongest frequencies of each are strong in the other.
pub fn compare(a: &[u8], b: &[u8], least: f64) -> Result<String, String> {
    let (a, b) = (riff::read(a)?, riff::read(b)?);
    for sound in [&a, &b] {
        if (sound.format, sound.channels, sound.bits) != (1, 1, 16) || sound.rate != a.rate {
            return Err("not two sounds of one channel, 16 bits and the same rate".into());
        }
    }
    let (first, second) = (spectrum(&a), spectrum(&b));
    let alike = cosine(&first[LOWEST..], &second[LOWEST..]);
    let (lacks, more) = (missing(&first, &second), missing(&second, &first));
    let step = f64::from(a.rate) / WINDOW as f64;
    let told = |peaks: &[usize]| peaks.iter().map(|&k| format!(" {:.0}", k as f64 * step)).collect::<String>();
    let text = format!("spectra: cosine {alike:.4}, strongest at{} Hz", told(&peaks(&first, STRONGEST)));
    if alike >= least && lacks.is_empty() && more.is_empty() {
        return Ok(text + "\n");
    }
    Err(format!("{text}, which the other lacks:{}, which only the other has:{}", told(&lacks), told(&more)))
}

#[cfg(test)]
mod tests {
    use super::*;

    /// A WAV file of a second of tones: frequency in Hz and strength.
    fn file(tones: &[(f64, f64)]) -> Vec<u8> {
        let sample = |at: usize| {
            tones
                .iter()
                .map(|(hz, strength)| strength * (std::f64::consts::TAU * hz * at as f64 / 44_100.0).sin())
                .sum::<f64>()
        };
        let data: Vec<u8> = (0..44_100).flat_map(|at| (sample(at) as i16).to_le_bytes()).collect();
        let mut file = b"RIFF".to_vec();
        file.extend((36 + data.len() as u32).to_le_bytes());
        file.extend(b"WAVEfmt \x10\0\0\0\x01\0\x01\0\x44\xac\0\0\x88\x58\x01\0\x02\0\x10\0data");
        file.extend((data.len() as u32).to_le_bytes());
        file.extend(data);
        file
    }

    #[test]
    fn tones_are_told_apart() {
        let eight =
            |shift: f64| (1..=STRONGEST as u16).map(|k| (500.0 * f64::from(k) + shift, 2000.0)).collect::<Vec<_>>();
        let spectrum = spectrum(&riff::read(&file(&[(1000.0, 8000.0)])).unwrap());
        let strongest = (0..WINDOW / 2).max_by(|&a, &b| spectrum[a].total_cmp(&spectrum[b])).unwrap();
        assert_eq!(strongest, 93);
        assert!(compare(&file(&eight(0.0)), &file(&eight(0.0)), 0.999).is_ok());
        assert!(compare(&file(&eight(0.0)), &file(&eight(60.0)), 0.1).is_err());
        assert!(compare(&file(&eight(0.0)), &file(&eight(60.0)), 0.999).is_err());
    }
}
