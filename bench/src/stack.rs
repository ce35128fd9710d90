//! How much stack a call of the library takes: the stack below is painted, the call is made, and what lost its paint is counted.

use crate::chance::Chance;
use crate::library;
use crate::round::{Drawn, Keepers, Round};
use std::hint::black_box;
use std::process::ExitCode;

const DEPTH: usize = 1 << 21;
const PAINT: u8 = 0xa5;

/// Fills so many bytes of the stack that are free again at the return; answers where they begin.
#[inline(never)]
fn paint() -> usize {
    let mut area = [PAINT; DEPTH];
    black_box(&mut area).as_ptr() as usize
}

/// How many of the bytes from the first one on that lost its paint to the end of the area.
#[inline(never)]
fn deep(base: usize) -> usize {
    // SAFETY: the bytes lie in this thread's stack, which is mapped that far, as `paint` has written them.
    let painted = |k: &usize| unsafe { ((base + k) as *const u8).read_volatile() } == PAINT;
    DEPTH - (0..DEPTH).take_while(painted).count()
}

fn of_call(call: impl Fn()) -> usize {
    let base = paint();
    call();
    deep(base)
}

/// Sheets of rounds of 16 doors at width 128, half of them on a grid of 15, with every kind of call, in a thread with room for
/// the paint.
fn measure() -> usize {
    let mut c = Chance::new(3);
    let calls: Vec<u8> = [[2, 1, 1, 0], [1, 0, 0, 0], [3, 1, 1, 2], [6, 0, 0, 0], [4, 9, 999, 0], [5, 0, 0, 0]]
        .iter()
        .flatten()
        .flat_map(|w: &u32| w.to_le_bytes())
        .collect();
    let mut round = |k: usize| {
        let slack = [40, 160, 1000][k % 3];
        Round::around(&mut c, [1, 15][k % 2], 16, Drawn { slack, pairs: 20, change: 2, keepers: Keepers::None })
    };
    let rounds: Vec<String> = (0..12).map(|k| round(k).text()).collect();
    let mut out = vec![0; 256];
    rounds
        .iter()
        .map(|text| {
            let out = std::cell::RefCell::new(&mut out);
            let sheet = of_call(|| {
                assert!(library::sheet(text.as_bytes(), 128, &calls, &mut out.borrow_mut()[..]) > 0);
            });
            let refine = of_call(|| {
                black_box(library::refine_often(text.as_bytes(), 128, 2));
            });
            let ask = of_call(|| {
                black_box(library::settled_often(text.as_bytes(), 128, 2) + library::musts_often(text.as_bytes(), 128, 2));
            });
            sheet.max(refine).max(ask)
        })
        .max()
        .unwrap_or(0)
}

pub fn print() -> ExitCode {
    let thread = std::thread::Builder::new().stack_size(4 * DEPTH).spawn(measure).expect("a thread");
    let most = thread.join().expect("the thread ends");
    println!("stack of a call, 16 doors, width 128, the records included: at most {most} bytes");
    ExitCode::SUCCESS
}
