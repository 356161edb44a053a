//! The planning terminal has a small stack (02, #104). What a call takes of it is measured by painting: all that lies below the caller is filled with one
//! byte, the call is made, and the lowest place that changed tells how far down it went.
//!
//! `cargo test --release --offline --manifest-path rust/Cargo.toml --test stack -- --nocapture` prints the figures of docs/SPEED.md.
#![cfg(target_arch = "x86_64")]
use std::arch::asm;
use std::hint::black_box;

const PAINT: u8 = 0xA5;
const PAINTED: usize = 1 << 18;
/// Left alone next to the stack pointer: more than the red zone, in which this function may keep something.
const SPARED: usize = 256;

/// How many bytes of stack `call` takes, its return address among them.
#[inline(never)]
fn taken(call: impl FnOnce()) -> usize {
    let top: usize;
    // SAFETY: the thread's stack is far larger than what is painted, and nothing in use lies below the stack pointer but the red zone, which is spared.
    unsafe {
        asm!(
            "mov {top}, rsp",
            "mov rdi, rsp",
            "sub rdi, {painted}",
            "mov ecx, {painted} - {spared}",
            "mov al, {paint}",
            "rep stosb",
            top = out(reg) top,
            painted = const PAINTED,
            spared = const SPARED,
            paint = const PAINT,
            out("rdi") _,
            out("rcx") _,
            out("al") _,
        );
    }
    call();
    // SAFETY: these bytes were written above, and are this thread's.
    let painted = |place: usize| unsafe { ((top - PAINTED + place) as *const u8).read_volatile() } == PAINT;
    PAINTED - (0..PAINTED).find(|&place| !painted(place)).unwrap_or(PAINTED)
}

fn rows(n: usize) -> (Vec<i32>, Vec<i32>) {
    let row = |gap: fn(i32) -> i32| {
        let mut at = 0;
        (0..n as i32).map(|i| { at += 1 + gap(i); at }).collect()
    };
    (row(|i| i * 7 % 3), row(|i| i * 5 % 3))
}

/// In a thread of its own, so that the stack is known to be large enough.
fn in_thread(test: fn()) {
    std::thread::Builder::new().stack_size(4 * PAINTED).spawn(test).unwrap().join().unwrap();
}

#[test]
fn best_takes_less_than_4096_bytes() {
    in_thread(|| {
        for n in [1, 2, 64, 512, 2047, 2048] {
            let (a, b) = rows(n);
            let mut ladder = [0; 24];
            let bytes = taken(|| {
                black_box(obrastyn::best(black_box(&a), black_box(&b), &mut ladder));
            });
            println!("best, {n} pairs: {bytes} bytes");
            assert!(bytes < 4096);
        }
    });
}

/// The pads that stay are written side by side into two rows of 2,048 columns (docs/DECISIONS.md, 42); all else that the call takes is little.
#[test]
fn still_fits_takes_two_rows_and_little_more() {
    in_thread(|| {
        for n in [1, 64, 2048] {
            let (a, b) = rows(n);
            let stays = vec![1; n];
            let bytes = taken(|| {
                black_box(obrastyn::still_fits(black_box(&a), black_box(&b), black_box(&stays), 3, 0));
            });
            println!("still_fits, {n} pairs: {bytes} bytes");
            assert!(bytes < 2 * 2048 * 4 + 1024);
        }
    });
}

/// The route of a part goes from the old table to the lent places.
#[test]
fn part_route_takes_little() {
    in_thread(|| {
        let (a, b) = rows(2048);
        let stays: Vec<u8> = (0..2048).map(|k| u8::from(k % 3 != 0)).collect();
        let s = obrastyn::least(&a, &b, 0).separation;
        let mut table = vec![0; 2048 * (s + 1)];
        assert_eq!(obrastyn::draw_all(&a, &b, s, 0, &mut table).refusal, 0);
        let mut out = table.clone();
        let bytes = taken(|| {
            black_box(obrastyn::part_route(black_box(&a), black_box(&b), black_box(&stays), s, 0, &table, &mut out));
        });
        println!("part_route, 2048 pairs: {bytes} bytes");
        assert!(bytes < 1024);
    });
}

/// Of the measure itself: optimised, as this workspace builds its tests, a function with an array of 10,000 bytes takes little more.
#[test]
fn what_a_painted_stack_shows() {
    in_thread(|| {
        #[inline(never)]
        fn deep() {
            black_box([1u8; 10_000]);
        }
        let bytes = taken(deep);
        assert!((10_000..11_000).contains(&bytes), "{bytes}");
    });
}
