// Mixing in plain Rust, frame by frame, to compare its instructions with the proved mixer's.
// Arguments: the number of frames. It mixes 32 voices, tick by tick, as the replayer does.

#[derive(Clone, Copy)]
struct Sides {
    left: i32,
    right: i32,
}

fn frame_at(frames: &[i16], place: usize) -> i16 {
    frames.get(place).copied().unwrap_or(0)
}

fn line(first: i16, second: i16, fraction: u32) -> i32 {
    let step = i64::from(256 * (i32::from(second) - i32::from(first)));
    256 * i32::from(first) + ((step * i64::from(fraction)) >> 32) as i32
}

fn value_at(frames: &[i16], position: u64) -> i32 {
    let place = (position >> 32) as usize;
    let fraction = (position % (1 << 32)) as u32;
    line(frame_at(frames, place), frame_at(frames, place + 1), fraction)
}

#[inline(never)]
fn add_sample(frames: &[i16], position: u64, step: u64, left: u32, right: u32, sums: &mut [Sides]) {
    let mut position = position;
    for sides in sums.iter_mut() {
        let value = i64::from(value_at(frames, position));
        sides.left += ((value * i64::from(left)) >> 18) as i32;
        sides.right += ((value * i64::from(right)) >> 18) as i32;
        position += step;
    }
}

fn main() {
    let count: usize = std::env::args().nth(1).and_then(|word| word.parse().ok()).unwrap_or(44_100);
    let frames: Vec<i16> = (0..200_000).map(|at| (at * 7 % 255 - 127) as i16).collect();
    let step = (8_363u64 << 32) / 44_100;
    let mut sums = [Sides { left: 0, right: 0 }; 882];
    let mut total = 0i64;
    for tick in 0..(count / 882) as u64 {
        sums.fill(Sides { left: 0, right: 0 });
        for voice in 0..32u32 {
            add_sample(&frames, tick * 882 * step, step, 1_000 + voice, 2_000 - voice, &mut sums);
        }
        for sides in &sums {
            total += i64::from(sides.left.clamp(-32_768, 32_767)) + i64::from(sides.right.clamp(-32_768, 32_767));
        }
    }
    println!("{total}");
}
