//! Times by the processor time that the thread takes, so that other work on the machine disturbs
//! less.

use std::time::Instant;

const PASSES: usize = 11;

#[repr(C)]
struct Timespec {
    seconds: i64,
    nanoseconds: i64,
}

const CLOCK_THREAD_CPUTIME_ID: i32 = 3;

unsafe extern "C" {
    fn clock_gettime(clock: i32, time: *mut Timespec) -> i32;
}

/// The processor time of this thread, in nanoseconds.
fn thread_time() -> f64 {
    let mut time = Timespec {
        seconds: 0,
        nanoseconds: 0,
    };
    let failed = unsafe { clock_gettime(CLOCK_THREAD_CPUTIME_ID, &mut time) };
    assert_eq!(failed, 0, "the thread's clock can be read");
    time.seconds as f64 * 1e9 + time.nanoseconds as f64
}

/// The time of one call after the other, in nanoseconds a call.
fn time<T>(inputs: &[T], call: &mut impl FnMut(&T)) -> f64 {
    let start = thread_time();
    for input in inputs {
        call(input);
    }
    (thread_time() - start) / inputs.len() as f64
}

/// The times of each side that are printed: the median and the least of the passes.
const PRINTED: [(&str, usize); 2] = [("median", PASSES / 2), ("least", 0)];

/// Takes the sides in turn, each second time from the last to the first, after one pass of each that is
/// not counted. Answers the times of each side, ascending.
fn passes<const N: usize>(sides: [&mut dyn FnMut() -> f64; N]) -> [Vec<f64>; N] {
    let mut times = [(); N].map(|_| Vec::new());
    for pass in 0..=PASSES {
        for place in 0..N {
            let side = if pass % 2 == 0 { place } else { N - 1 - place };
            times[side].push(sides[side]());
        }
    }
    times.map(|mut side| {
        side.remove(0);
        side.sort_by(f64::total_cmp);
        side
    })
}

/// Takes both sides in turn, and prints the median and the least time of the passes.
pub fn compare<A, O>(
    theirs: &[A],
    mut agari: impl FnMut(&A),
    inputs: &[O],
    mut ours: impl FnMut(&O),
) {
    let [agari, ours] = passes([&mut || time(theirs, &mut agari), &mut || {
        time(inputs, &mut ours)
    }]);
    for (name, pass) in PRINTED {
        let [agari, ours] = [agari[pass], ours[pass]];
        let ratio = agari / ours;
        println!("  {name:6}  agari {agari:6.0} ns, ours {ours:5.0} ns, ratio {ratio:5.1}");
    }
}

/// Takes both sides in turn, ours also on the same inputs with less in them, and prints the same and how
/// many times as long ours takes as with less.
pub fn compare_with<A, O>(
    theirs: &[A],
    mut agari: impl FnMut(&A),
    inputs: &[O],
    less: &[O],
    ours: impl Fn(&O),
) {
    let [agari, with, without] = passes([
        &mut || time(theirs, &mut agari),
        &mut || time(inputs, &mut |input| ours(input)),
        &mut || time(less, &mut |input| ours(input)),
    ]);
    for (name, pass) in PRINTED {
        let [agari, with, without] = [agari[pass], with[pass], without[pass]];
        let [ratio, more] = [agari / with, with / without];
        println!(
            "  {name:6}  agari {agari:6.0} ns, ours {with:5.0} ns, ratio {ratio:5.1}; \
             ours without {without:5.0} ns, {more:.3} times as long with"
        );
    }
}

/// Takes two operations in turn, the second of which does more than the first, and prints the median
/// and the least time of the passes and how many times as long the second takes.
pub fn compare_more<A, O>(
    [less, more]: [&str; 2],
    inputs: &[A],
    mut first: impl FnMut(&A),
    others: &[O],
    mut second: impl FnMut(&O),
) {
    let [first, second] = passes([&mut || time(inputs, &mut first), &mut || {
        time(others, &mut second)
    }]);
    for (name, pass) in PRINTED {
        let [first, second] = [first[pass], second[pass]];
        let times = second / first;
        println!(
            "  {name:6}  {less} {first:5.0} ns, {more} {second:5.0} ns, {times:.3} times as long"
        );
    }
}

/// The least time of each call over the passes, in nanoseconds. Each call is timed by itself, after
/// the one before, and what the clock takes is left out.
pub fn each<T>(inputs: &[T], mut call: impl FnMut(&T)) -> Vec<f64> {
    let mut least = vec![f64::INFINITY; inputs.len()];
    let clock = clock_time();
    for _ in 0..=PASSES {
        for (input, least) in inputs.iter().zip(&mut least) {
            let start = Instant::now();
            call(input);
            let time = start.elapsed().as_nanos() as f64 - clock;
            *least = least.min(time);
        }
    }
    least
}

/// The least time between two looks at the clock, in nanoseconds.
fn clock_time() -> f64 {
    let times = (0..10_000).map(|_| Instant::now().elapsed().as_nanos());
    times.min().unwrap_or(0) as f64
}

/// What is said of the passes.
pub fn about_passes() -> String {
    format!("{PASSES} passes of each side by turns, nanoseconds a call")
}
