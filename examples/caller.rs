// A caller in Rust: decomposes a small strip, first with a tolerance and then without, to show how many different coverings a mill needs; restores it as a
// master, which the plane is only until it is cut; keeps the best coefficients, writes the sheet, reads it back and restores it; looks at a window of it,
// which is restored alone; smooths it by one step. Decomposes, keeps and restores with a list of sixteen coverings, to show how much farther the picture is
// then. Then the strip as two halves, each decomposed and cut by itself, as a wide leaf is scanned: joined, they restore to the two side by side.
// Then what an installer runs: a test image, made from a number, goes there and back. Then what a print shop runs: a calibration card, the block of two grey
// steps that shows the last covering; decomposed, it gives that covering.
// The functions below wrap the C entries in slices, so that lengths and pointers cannot be mistaken.

use std::collections::BTreeSet;

mod ffi {
    extern "C" {
        pub fn tetrolet_decompose(
            height: usize,
            width: usize,
            levels: usize,
            samples: *const u16,
            samples_len: usize,
            plane: *mut i64,
            plane_len: usize,
            coverings: *mut u8,
            coverings_len: usize,
            scratch: *mut i64,
            scratch_len: usize,
        ) -> u32;
        pub fn tetrolet_decompose_within(
            height: usize,
            width: usize,
            levels: usize,
            tolerance: u64,
            samples: *const u16,
            samples_len: usize,
            plane: *mut i64,
            plane_len: usize,
            coverings: *mut u8,
            coverings_len: usize,
            scratch: *mut i64,
            scratch_len: usize,
        ) -> u32;
        pub fn tetrolet_decompose_listed(
            height: usize,
            width: usize,
            levels: usize,
            tolerance: u64,
            samples: *const u16,
            samples_len: usize,
            list: *const u8,
            list_len: usize,
            plane: *mut i64,
            plane_len: usize,
            coverings: *mut u8,
            coverings_len: usize,
            scratch: *mut i64,
            scratch_len: usize,
        ) -> u32;
        pub fn tetrolet_restore(
            height: usize,
            width: usize,
            levels: usize,
            plane: *const i64,
            plane_len: usize,
            coverings: *const u8,
            coverings_len: usize,
            numerators: *mut i64,
            numerators_len: usize,
            samples: *mut u16,
            samples_len: usize,
            scratch: *mut i64,
            scratch_len: usize,
        ) -> u32;
        pub fn tetrolet_restore_listed(
            height: usize,
            width: usize,
            levels: usize,
            plane: *const i64,
            plane_len: usize,
            coverings: *const u8,
            coverings_len: usize,
            list: *const u8,
            list_len: usize,
            numerators: *mut i64,
            numerators_len: usize,
            samples: *mut u16,
            samples_len: usize,
            scratch: *mut i64,
            scratch_len: usize,
        ) -> u32;
        pub fn tetrolet_restore_master(
            height: usize,
            width: usize,
            levels: usize,
            plane: *const i64,
            plane_len: usize,
            coverings: *const u8,
            coverings_len: usize,
            numerators: *mut i64,
            numerators_len: usize,
            samples: *mut u16,
            samples_len: usize,
            scratch: *mut i64,
            scratch_len: usize,
        ) -> u32;
        pub fn tetrolet_keep(
            height: usize,
            width: usize,
            levels: usize,
            plane: *mut i64,
            plane_len: usize,
            quota: u64,
            left: *mut usize,
        ) -> u32;
        pub fn tetrolet_join(
            left_height: usize,
            left_width: usize,
            left_levels: usize,
            left_plane: *const i64,
            left_plane_len: usize,
            left_coverings: *const u8,
            left_coverings_len: usize,
            right_height: usize,
            right_width: usize,
            right_levels: usize,
            right_plane: *const i64,
            right_plane_len: usize,
            right_coverings: *const u8,
            right_coverings_len: usize,
            plane: *mut i64,
            plane_len: usize,
            coverings: *mut u8,
            coverings_len: usize,
        ) -> u32;
        pub fn tetrolet_write(
            height: usize,
            width: usize,
            levels: usize,
            plane: *const i64,
            plane_len: usize,
            coverings: *const u8,
            coverings_len: usize,
            buffer: *mut u8,
            buffer_len: usize,
            length: *mut usize,
        ) -> u32;
        pub fn tetrolet_read(
            text: *const u8,
            text_len: usize,
            plane: *mut i64,
            plane_len: usize,
            coverings: *mut u8,
            coverings_len: usize,
            height: *mut usize,
            width: *mut usize,
            levels: *mut usize,
        ) -> u32;
        pub fn tetrolet_window(
            height: usize,
            width: usize,
            levels: usize,
            plane: *const i64,
            plane_len: usize,
            coverings: *const u8,
            coverings_len: usize,
            top: usize,
            left: usize,
            window_height: usize,
            window_width: usize,
            samples: *mut u16,
            samples_len: usize,
        ) -> u32;
        pub fn tetrolet_smooth(
            height: usize,
            width: usize,
            levels: usize,
            plane: *const i64,
            plane_len: usize,
            coverings: *const u8,
            coverings_len: usize,
            step: u64,
            result: *mut i64,
            result_len: usize,
            scratch: *mut i64,
            scratch_len: usize,
        ) -> u32;
        pub fn tetrolet_test_image(
            height: usize,
            width: usize,
            start: u32,
            samples: *mut u16,
            samples_len: usize,
        ) -> u32;
        pub fn tetrolet_show(
            covering: u8,
            steps: *const u16,
            steps_len: usize,
            samples: *mut u16,
            samples_len: usize,
            found: *mut u8,
        ) -> u32;
    }
}

type Answer<T> = Result<T, u32>;

fn answer<T>(refusal: u32, value: T) -> Answer<T> {
    if refusal == 0 {
        Ok(value)
    } else {
        Err(refusal)
    }
}

fn decompose(
    height: usize,
    width: usize,
    levels: usize,
    samples: &[u16],
    plane: &mut [i64],
    coverings: &mut [u8],
    scratch: &mut [i64],
) -> Answer<()> {
    let n = unsafe {
        ffi::tetrolet_decompose(
            height,
            width,
            levels,
            samples.as_ptr(),
            samples.len(),
            plane.as_mut_ptr(),
            plane.len(),
            coverings.as_mut_ptr(),
            coverings.len(),
            scratch.as_mut_ptr(),
            scratch.len(),
        )
    };
    answer(n, ())
}

fn decompose_within(
    height: usize,
    width: usize,
    levels: usize,
    tolerance: u64,
    samples: &[u16],
    plane: &mut [i64],
    coverings: &mut [u8],
    scratch: &mut [i64],
) -> Answer<()> {
    let n = unsafe {
        ffi::tetrolet_decompose_within(
            height,
            width,
            levels,
            tolerance,
            samples.as_ptr(),
            samples.len(),
            plane.as_mut_ptr(),
            plane.len(),
            coverings.as_mut_ptr(),
            coverings.len(),
            scratch.as_mut_ptr(),
            scratch.len(),
        )
    };
    answer(n, ())
}

fn decompose_listed(
    height: usize,
    width: usize,
    levels: usize,
    tolerance: u64,
    samples: &[u16],
    list: &[u8],
    plane: &mut [i64],
    coverings: &mut [u8],
    scratch: &mut [i64],
) -> Answer<()> {
    let n = unsafe {
        ffi::tetrolet_decompose_listed(
            height,
            width,
            levels,
            tolerance,
            samples.as_ptr(),
            samples.len(),
            list.as_ptr(),
            list.len(),
            plane.as_mut_ptr(),
            plane.len(),
            coverings.as_mut_ptr(),
            coverings.len(),
            scratch.as_mut_ptr(),
            scratch.len(),
        )
    };
    answer(n, ())
}

fn restore(
    height: usize,
    width: usize,
    levels: usize,
    plane: &[i64],
    coverings: &[u8],
    numerators: &mut [i64],
    samples: &mut [u16],
    scratch: &mut [i64],
) -> Answer<()> {
    let n = unsafe {
        ffi::tetrolet_restore(
            height,
            width,
            levels,
            plane.as_ptr(),
            plane.len(),
            coverings.as_ptr(),
            coverings.len(),
            numerators.as_mut_ptr(),
            numerators.len(),
            samples.as_mut_ptr(),
            samples.len(),
            scratch.as_mut_ptr(),
            scratch.len(),
        )
    };
    answer(n, ())
}

fn restore_listed(
    height: usize,
    width: usize,
    levels: usize,
    plane: &[i64],
    coverings: &[u8],
    list: &[u8],
    numerators: &mut [i64],
    samples: &mut [u16],
    scratch: &mut [i64],
) -> Answer<()> {
    let n = unsafe {
        ffi::tetrolet_restore_listed(
            height,
            width,
            levels,
            plane.as_ptr(),
            plane.len(),
            coverings.as_ptr(),
            coverings.len(),
            list.as_ptr(),
            list.len(),
            numerators.as_mut_ptr(),
            numerators.len(),
            samples.as_mut_ptr(),
            samples.len(),
            scratch.as_mut_ptr(),
            scratch.len(),
        )
    };
    answer(n, ())
}

fn keep(
    height: usize,
    width: usize,
    levels: usize,
    plane: &mut [i64],
    quota: u64,
) -> Answer<usize> {
    let mut left = 0;
    let n = unsafe {
        ffi::tetrolet_keep(
            height,
            width,
            levels,
            plane.as_mut_ptr(),
            plane.len(),
            quota,
            &mut left,
        )
    };
    answer(n, left)
}

// A plane with its coverings: a strip that may be a master, that is joined to another, that a window is looked at of, or that is smoothed.
struct Strip<'a> {
    height: usize,
    width: usize,
    levels: usize,
    plane: &'a [i64],
    coverings: &'a [u8],
}

// What a strip is restored to, and the scratch.
struct Restored {
    numerators: Vec<i64>,
    samples: Vec<u16>,
    scratch: Vec<i64>,
}

fn restore_master(strip: &Strip, to: &mut Restored) -> Answer<()> {
    let n = unsafe {
        ffi::tetrolet_restore_master(
            strip.height,
            strip.width,
            strip.levels,
            strip.plane.as_ptr(),
            strip.plane.len(),
            strip.coverings.as_ptr(),
            strip.coverings.len(),
            to.numerators.as_mut_ptr(),
            to.numerators.len(),
            to.samples.as_mut_ptr(),
            to.samples.len(),
            to.scratch.as_mut_ptr(),
            to.scratch.len(),
        )
    };
    answer(n, ())
}

fn join(left: &Strip, right: &Strip, plane: &mut [i64], coverings: &mut [u8]) -> Answer<()> {
    let n = unsafe {
        ffi::tetrolet_join(
            left.height,
            left.width,
            left.levels,
            left.plane.as_ptr(),
            left.plane.len(),
            left.coverings.as_ptr(),
            left.coverings.len(),
            right.height,
            right.width,
            right.levels,
            right.plane.as_ptr(),
            right.plane.len(),
            right.coverings.as_ptr(),
            right.coverings.len(),
            plane.as_mut_ptr(),
            plane.len(),
            coverings.as_mut_ptr(),
            coverings.len(),
        )
    };
    answer(n, ())
}

// A window of an image: its first row and column, its rows and its columns.
struct Window {
    top: usize,
    left: usize,
    tall: usize,
    wide: usize,
}

fn window(strip: &Strip, w: &Window, samples: &mut [u16]) -> Answer<()> {
    let n = unsafe {
        ffi::tetrolet_window(
            strip.height,
            strip.width,
            strip.levels,
            strip.plane.as_ptr(),
            strip.plane.len(),
            strip.coverings.as_ptr(),
            strip.coverings.len(),
            w.top,
            w.left,
            w.tall,
            w.wide,
            samples.as_mut_ptr(),
            samples.len(),
        )
    };
    answer(n, ())
}

fn smooth(strip: &Strip, step: u64, result: &mut [i64], scratch: &mut [i64]) -> Answer<()> {
    let n = unsafe {
        ffi::tetrolet_smooth(
            strip.height,
            strip.width,
            strip.levels,
            strip.plane.as_ptr(),
            strip.plane.len(),
            strip.coverings.as_ptr(),
            strip.coverings.len(),
            step,
            result.as_mut_ptr(),
            result.len(),
            scratch.as_mut_ptr(),
            scratch.len(),
        )
    };
    answer(n, ())
}

fn write(
    height: usize,
    width: usize,
    levels: usize,
    plane: &[i64],
    coverings: &[u8],
    buffer: &mut [u8],
) -> Answer<usize> {
    let mut length = 0;
    let n = unsafe {
        ffi::tetrolet_write(
            height,
            width,
            levels,
            plane.as_ptr(),
            plane.len(),
            coverings.as_ptr(),
            coverings.len(),
            buffer.as_mut_ptr(),
            buffer.len(),
            &mut length,
        )
    };
    answer(n, length)
}

fn read(text: &[u8], plane: &mut [i64], coverings: &mut [u8]) -> Answer<(usize, usize, usize)> {
    let (mut height, mut width, mut levels) = (0, 0, 0);
    let n = unsafe {
        ffi::tetrolet_read(
            text.as_ptr(),
            text.len(),
            plane.as_mut_ptr(),
            plane.len(),
            coverings.as_mut_ptr(),
            coverings.len(),
            &mut height,
            &mut width,
            &mut levels,
        )
    };
    answer(n, (height, width, levels))
}

fn test_image(height: usize, width: usize, start: u32, samples: &mut [u16]) -> Answer<()> {
    let n = unsafe {
        ffi::tetrolet_test_image(height, width, start, samples.as_mut_ptr(), samples.len())
    };
    answer(n, ())
}

// Whether there is a block that shows the covering; where there is none the samples stay.
fn show(covering: u8, steps: &[u16], samples: &mut [u16]) -> Answer<bool> {
    let mut found = 0;
    let n = unsafe {
        ffi::tetrolet_show(
            covering,
            steps.as_ptr(),
            steps.len(),
            samples.as_mut_ptr(),
            samples.len(),
            &mut found,
        )
    };
    answer(n, found == 1)
}

const HEIGHT: usize = 8;
const WIDTH: usize = 32;
const LEVELS: usize = 2;
const AREA: usize = HEIGHT * WIDTH;
const BLOCKS: usize = 2 * 8 + 4;
const QUOTA: u64 = 60;
const TOLERANCE: u64 = 16;
const STEP: u64 = 8;

// A window of it, which begins and ends inside blocks.
const WINDOW: Window = Window {
    top: 3,
    left: 13,
    tall: 4,
    wide: 6,
};

// A half of it, left or right, and what it is cut to.
const HALF_WIDTH: usize = WIDTH / 2;
const HALF: usize = AREA / 2;
const LEFT_QUOTA: u64 = 35;
const RIGHT_QUOTA: u64 = 25;

// A calibration card: the covering that it shows, its cells, and its grey steps.
const SHOWN: u8 = 117;
const CARD: usize = 16;
const DARK: u16 = 1000;
const BRIGHT: u16 = 3000;

// Sixteen coverings with different directions; sixteen.h says where they are from.
const SIXTEEN: [u8; 16] = [
    1, 5, 10, 17, 25, 28, 57, 60, 65, 68, 79, 86, 105, 108, 109, 117,
];

// The plane and the coverings of an image, which may be a half.
fn planed(width: usize, image: &[u16]) -> Answer<(Vec<i64>, Vec<u8>)> {
    let (area, blocks) = (image.len(), BLOCKS * width / WIDTH);
    let (mut plane, mut coverings, mut scratch) = (vec![0; area], vec![0; blocks], vec![0; area]);
    decompose(
        HEIGHT,
        width,
        LEVELS,
        image,
        &mut plane,
        &mut coverings,
        &mut scratch,
    )?;
    Ok((plane, coverings))
}

// The coverings of an image, with a tolerance.
fn covered(image: &[u16], tolerance: u64) -> Answer<Vec<u8>> {
    let (mut plane, mut coverings, mut scratch) = (vec![0; AREA], vec![0; BLOCKS], vec![0; AREA]);
    decompose_within(
        HEIGHT,
        WIDTH,
        LEVELS,
        tolerance,
        image,
        &mut plane,
        &mut coverings,
        &mut scratch,
    )?;
    Ok(coverings)
}

// The plane and the coverings of an image, by a list.
fn listed(image: &[u16], list: &[u8]) -> Answer<(Vec<i64>, Vec<u8>)> {
    let (mut plane, mut coverings, mut scratch) = (vec![0; AREA], vec![0; BLOCKS], vec![0; AREA]);
    decompose_listed(
        HEIGHT,
        WIDTH,
        LEVELS,
        0,
        image,
        list,
        &mut plane,
        &mut coverings,
        &mut scratch,
    )?;
    Ok((plane, coverings))
}

fn different(coverings: &[u8]) -> usize {
    coverings.iter().collect::<BTreeSet<_>>().len()
}

// The numerators and the samples of a plane and its coverings.
fn restored(
    height: usize,
    width: usize,
    levels: usize,
    plane: &[i64],
    coverings: &[u8],
) -> Answer<(Vec<i64>, Vec<u16>)> {
    let area = plane.len();
    let (mut numerators, mut samples, mut scratch) = (vec![0; area], vec![0; area], vec![0; area]);
    restore(
        height,
        width,
        levels,
        plane,
        coverings,
        &mut numerators,
        &mut samples,
        &mut scratch,
    )?;
    Ok((numerators, samples))
}

// The samples by a list.
fn restored_by(plane: &[i64], coverings: &[u8], list: &[u8]) -> Answer<Vec<u16>> {
    let (mut numerators, mut samples, mut scratch) = (vec![0; AREA], vec![0; AREA], vec![0; AREA]);
    restore_listed(
        HEIGHT,
        WIDTH,
        LEVELS,
        plane,
        coverings,
        list,
        &mut numerators,
        &mut samples,
        &mut scratch,
    )?;
    Ok(samples)
}

// The samples that a smoothing step gives: over 16 * 4^levels, rounded to nearest, halves upward, and held to 0 and 4,095.
fn smoothed(strip: &Strip, step: u64) -> Answer<Vec<u16>> {
    let (mut result, mut scratch) = (vec![0; strip.plane.len()], vec![0; strip.plane.len()]);
    smooth(strip, step, &mut result, &mut scratch)?;
    let whole = 16i64 << (2 * strip.levels);
    let sample = |v: i64| (v + whole / 2).div_euclid(whole).clamp(0, 4095) as u16;
    Ok(result.into_iter().map(sample).collect())
}

// The absolute differences of each sample to its neighbours above, below, left and right, all added up: each pair counts twice.
fn total_variation(image: &[u16], height: usize) -> u64 {
    let difference = |a: usize, b: usize| image[a].abs_diff(image[b]) as u64;
    let below = |k: usize| (k + 1) % height > 0;
    let down = (0..image.len())
        .filter(|k| below(*k))
        .map(|k| difference(k, k + 1));
    let across = (height..image.len()).map(|k| difference(k - height, k));
    2 * down.chain(across).sum::<u64>()
}

// The numerators and the samples of two halves, joined.
fn joined(left: &Strip, right: &Strip) -> Answer<(Vec<i64>, Vec<u16>)> {
    let (mut plane, mut coverings) = (vec![0; AREA], vec![0; BLOCKS]);
    join(left, right, &mut plane, &mut coverings)?;
    restored(HEIGHT, WIDTH, LEVELS, &plane, &coverings)
}

fn strip<'a>(width: usize, plane: &'a [i64], coverings: &'a [u8]) -> Strip<'a> {
    Strip {
        height: HEIGHT,
        width,
        levels: LEVELS,
        plane,
        coverings,
    }
}

fn half<'a>(plane: &'a [i64], coverings: &'a [u8]) -> Strip<'a> {
    strip(HALF_WIDTH, plane, coverings)
}

// How many cells have what an image, restored as a master, leaves: its sample, a numerator of 4^LEVELS times the sample, and a scratch of 0.
fn same_master(image: &[u16], left: &Restored) -> usize {
    let numerator = |k: usize| (image[k] as i64) << (2 * LEVELS);
    (0..image.len())
        .filter(|k| left.samples[*k] == image[*k])
        .filter(|k| left.numerators[*k] == numerator(*k) && left.scratch[*k] == 0)
        .count()
}

// The samples of an image at the places of a window.
fn part(image: &[u16], height: usize, w: &Window) -> Vec<u16> {
    let column = |x: usize| &image[x * height + w.top..][..w.tall];
    (w.left..w.left + w.wide).flat_map(column).copied().collect()
}

fn squared_distance(a: &[u16], b: &[u16]) -> i64 {
    a.iter()
        .zip(b)
        .map(|(a, b)| (*a as i64 - *b as i64).pow(2))
        .sum()
}

fn same<T: PartialEq>(a: &[T], b: &[T]) -> usize {
    a.iter().zip(b).filter(|(a, b)| a == b).count()
}

fn run() -> Answer<()> {
    // A soft slope with a fine grain and a bright diagonal bar, stored down columns.
    let mut image = vec![0u16; AREA];
    for x in 0..WIDTH {
        for y in 0..HEIGHT {
            let bar = if x.abs_diff(4 * y) < 4 { 1500 } else { 0 };
            image[x * HEIGHT + y] = (5 * x + 2 * y + (x * x + 3 * y * y) % 17 + bar) as u16;
        }
    }

    let near_kinds = different(&covered(&image, TOLERANCE)?);
    let (mut plane, coverings) = planed(WIDTH, &image)?;
    let kinds = different(&coverings);
    let entries = plane.iter().filter(|v| **v != 0).count();
    println!("decomposed height {HEIGHT}, width {WIDTH} with {LEVELS} levels: {BLOCKS} blocks, {kinds} different coverings, {entries} plane entries not zero");
    println!("different coverings used: {kinds} with tolerance 0, {near_kinds} with tolerance {TOLERANCE}");

    let mut master = Restored {
        numerators: vec![0; AREA],
        samples: vec![0; AREA],
        scratch: vec![0; AREA],
    };
    restore_master(&strip(WIDTH, &plane, &coverings), &mut master)?;
    println!(
        "restored as a master: {} of {AREA} samples, nothing rounded",
        same_master(&image, &master)
    );

    let left = keep(HEIGHT, WIDTH, LEVELS, &mut plane, QUOTA)?;
    println!("kept {left} tetrolet coefficients");
    if let Err(refusal) = restore_master(&strip(WIDTH, &plane, &coverings), &mut master) {
        println!(
            "no master any more: refused by {refusal}; {} of {AREA} places are as they were",
            same_master(&image, &master)
        );
    }
    let mut sheet = vec![0; 32 * AREA];
    let length = write(HEIGHT, WIDTH, LEVELS, &plane, &coverings, &mut sheet)?;
    println!("wrote a sheet of {length} bytes");
    let (mut plane, mut coverings) = (vec![0; AREA], vec![0; BLOCKS]);
    let (height, width, levels) = read(&sheet[..length], &mut plane, &mut coverings)?;
    println!("read it back: height {height}, width {width}, levels {levels}");

    let (_, samples) = restored(height, width, levels, &plane, &coverings)?;
    let distance = squared_distance(&image, &samples);
    println!("restored: squared distance {distance} over {AREA} samples");

    let Window {
        top,
        left,
        tall,
        wide,
    } = WINDOW;
    let strip = Strip {
        height,
        width,
        levels,
        plane: &plane,
        coverings: &coverings,
    };
    let mut seen = vec![0; tall * wide];
    window(&strip, &WINDOW, &mut seen)?;
    println!(
        "window of height {tall}, width {wide} from row {top}, column {left}: {} of {} samples are those restored there",
        same(&seen, &part(&samples, height, &WINDOW)),
        seen.len()
    );

    let smooth = smoothed(&strip, STEP)?;
    println!(
        "smoothed by a step of {STEP}: total variation {} before, {} after; squared distance {}",
        total_variation(&samples, height),
        total_variation(&smooth, height),
        squared_distance(&image, &smooth)
    );

    let (mut plane, coverings) = listed(&image, &SIXTEEN)?;
    keep(HEIGHT, WIDTH, LEVELS, &mut plane, QUOTA)?;
    let samples = restored_by(&plane, &coverings, &SIXTEEN)?;
    println!(
        "with a list of {} coverings: {} different ones, squared distance {}; with all 117: {kinds}, {distance}",
        SIXTEEN.len(),
        different(&coverings),
        squared_distance(&image, &samples)
    );
    if let Err(refusal) = restored_by(strip.plane, strip.coverings, &SIXTEEN) {
        println!("the sheet, whose coverings are out of all 117, with that list: refused by {refusal}");
    }

    // Columns stand one after the other, so the left half of the image is the first half of its samples.
    let (mut left, left_coverings) = planed(HALF_WIDTH, &image[..HALF])?;
    let (mut right, right_coverings) = planed(HALF_WIDTH, &image[HALF..])?;
    let (_, samples) = joined(
        &half(&left, &left_coverings),
        &half(&right, &right_coverings),
    )?;
    println!(
        "joined two strips of width {HALF_WIDTH}, uncut: {} of {AREA} samples restored",
        same(&image, &samples)
    );
    keep(HEIGHT, HALF_WIDTH, LEVELS, &mut left, LEFT_QUOTA)?;
    keep(HEIGHT, HALF_WIDTH, LEVELS, &mut right, RIGHT_QUOTA)?;
    let (mut apart, _) = restored(HEIGHT, HALF_WIDTH, LEVELS, &left, &left_coverings)?;
    apart.extend(restored(HEIGHT, HALF_WIDTH, LEVELS, &right, &right_coverings)?.0);
    let (numerators, samples) = joined(
        &half(&left, &left_coverings),
        &half(&right, &right_coverings),
    )?;
    println!(
        "cut to {LEFT_QUOTA} and {RIGHT_QUOTA}, then joined: {} of {AREA} numerators are those of the two strips; squared distance {}",
        same(&numerators, &apart),
        squared_distance(&image, &samples)
    );

    test_image(HEIGHT, WIDTH, 0, &mut image)?;
    let (plane, coverings) = planed(WIDTH, &image)?;
    let (_, samples) = restored(HEIGHT, WIDTH, LEVELS, &plane, &coverings)?;
    println!(
        "test image from 0: first sample {}; {} of {AREA} samples restored",
        image[0],
        same(&image, &samples)
    );

    // With one step there is none, and the card stays.
    let mut card = [0; CARD];
    let by_two = show(SHOWN, &[DARK, BRIGHT], &mut card)?;
    let by_one = show(SHOWN, &[DARK], &mut card)?;
    let said = |found: bool| if found { "found" } else { "none" };
    println!(
        "card for covering {SHOWN}: with steps {DARK} and {BRIGHT} {}, with {DARK} alone {}",
        said(by_two),
        said(by_one)
    );
    for y in 0..4 {
        println!(
            "  {} {} {} {}",
            card[y],
            card[4 + y],
            card[8 + y],
            card[12 + y]
        );
    }
    let mut covering = [0];
    decompose(
        4,
        4,
        1,
        &card,
        &mut [0; CARD],
        &mut covering,
        &mut [0; CARD],
    )?;
    println!("the card, decomposed: covering {}", covering[0]);
    Ok(())
}

fn main() {
    if let Err(refusal) = run() {
        println!("refused: {refusal}");
        std::process::exit(1);
    }
}
