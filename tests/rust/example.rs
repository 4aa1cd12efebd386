// Four studies from Rust, two refused: those of tests/host/example, with the same numbers; what is altered there by an
// edit is here a new study. tests/rust/run compiles this, runs it, and compares what it prints.
//
//     rustc --edition 2021 -O -L target/staticlib tests/rust/example.rs -o example
//
// include/bridletenon.h has the meaning and the unit of each number.

#[derive(Clone, Copy, Default)]
#[repr(C)]
struct Patch {
    cover: u64,
    soil: u64,
    area: u64,
}

/// What stands past the length is by the kind; what a kind does not need is spare.
#[derive(Clone, Copy, Default)]
#[repr(C)]
struct Segment {
    kind: u64,
    length: u64,
    by: [u64; 3],
}

impl Segment {
    fn unpaved(length: u64, slope: u64) -> Segment {
        Segment { kind: 1, length, by: [slope, 0, 0] }
    }

    fn paved(length: u64, slope: u64) -> Segment {
        Segment { kind: 2, length, by: [slope, 0, 0] }
    }

    fn given(length: u64, velocity: u64) -> Segment {
        Segment { kind: 3, length, by: [velocity, 0, 0] }
    }

    fn sheet(length: u64, n: u64, rain: u64, slope: u64) -> Segment {
        Segment { kind: 4, length, by: [n, rain, slope] }
    }

    fn channel(length: u64, n: u64, radius: u64, slope: u64) -> Segment {
        Segment { kind: 5, length, by: [n, radius, slope] }
    }
}

const MOST_PATCHES: usize = 8;
const MOST_SEGMENTS: usize = 6;

#[derive(Clone, Copy)]
#[repr(C)]
struct Subarea {
    patch_count: u64,
    patches: [Patch; MOST_PATCHES],
    segment_count: u64,
    segments: [Segment; MOST_SEGMENTS],
}

/// The interface that the structs and functions here are declared for.
const INTERFACE: u64 = 5;

#[link(name = "host", kind = "static")]
extern "C" {
    fn bt_interface() -> u64;
    fn bt_study_records(
        step: u64, first: u64, rule: u64,
        rain: *const u64, rain_len: usize,
        list: *const Subarea, list_len: usize,
        pond: *const u64, pond_len: usize,
        inflow: *mut u64, inflow_len: usize,
        outflow: *mut u64, outflow_len: usize,
        storage: *mut u64, storage_len: usize,
        answer: *mut u64,
    ) -> u64;
}

/// Sheet rules: sheet flow to 300 ft, and to 100 ft.
const TR55: u64 = 1;
const WINTR55: u64 = 2;

/// The refusal of a segment out of its limits, also of one of sheet flow that is longer than the rule lets it be; its
/// place is the subarea.
const REFUSED_SEGMENTS: u64 = 7;

/// The refusal of rain that rises by more than 4,000 from one entry to the next; its place is the later one.
const REFUSED_RISE: u64 = 19;

/// What a study is worked from.
#[derive(Clone, Copy)]
struct Site<'a> {
    step: u64,
    first: u64,
    rule: u64,
    rain: &'a [u64],
    list: &'a [Subarea],
    pond: &'a [u64],
}

/// What it fills: a number for each row.
struct Rows {
    inflow: Vec<u64>,
    outflow: Vec<u64>,
    storage: Vec<u64>,
}

/// The answer's twelve numbers, or the refusal's number and place; then the rows are as they were.
fn study(site: &Site, rows: &mut Rows) -> Result<[u64; 12], (u64, u64)> {
    let mut answer = [0; 12];
    // SAFETY: these borrows give that no pointer is null, that each list is as long as its length says, that none which
    // is written overlaps another, and that nobody else writes to one meanwhile. That those which are only read do not
    // overlap is left to who makes a Site.
    let refusal = unsafe {
        bt_study_records(
            site.step, site.first, site.rule,
            site.rain.as_ptr(), site.rain.len(),
            site.list.as_ptr(), site.list.len(),
            site.pond.as_ptr(), site.pond.len(),
            rows.inflow.as_mut_ptr(), rows.inflow.len(),
            rows.outflow.as_mut_ptr(), rows.outflow.len(),
            rows.storage.as_mut_ptr(), rows.storage.len(),
            answer.as_mut_ptr(),
        )
    };
    if refusal == 0 { Ok(answer) } else { Err((answer[0], answer[1])) }
}

fn subarea(patches: &[Patch], segments: &[Segment]) -> Subarea {
    let mut own = Subarea {
        patch_count: patches.len() as u64,
        patches: [Patch::default(); MOST_PATCHES],
        segment_count: segments.len() as u64,
        segments: [Segment::default(); MOST_SEGMENTS],
    };
    own.patches[..patches.len()].copy_from_slice(patches);
    own.segments[..segments.len()].copy_from_slice(segments);
    own
}

fn thousandths(what: &str, number: u64, unit: &str) {
    println!("  {what:<16} {:6}.{:03} {unit}", number / 1000, number % 1000);
}

fn print_figures(what: &str, answer: &[u64; 12]) {
    println!("{what}");
    thousandths("inflow", answer[2], "cubic feet");
    thousandths("released", answer[3], "cubic feet");
    thousandths("stored", answer[4], "cubic feet");
    thousandths("peak outflow", answer[5], "cfs");
    println!("  {:<16} {:6}", "in row", answer[6]);
    thousandths("greatest stage", answer[7], "ft");
}

fn print_study(what: &str, result: Result<[u64; 12], (u64, u64)>) {
    match result {
        Ok(answer) => print_figures(what, &answer),
        Err((number, place)) => println!("{what} is refused: {number} at {place}"),
    }
}

fn main() {
    // SAFETY: it takes nothing, and its signature is the same in every interface.
    let interface = unsafe { bt_interface() };
    assert_eq!(interface, INTERFACE, "the engine has another interface than this was written for");
    let lots = subarea(
        &[Patch { cover: 14, soil: 2, area: 800 }, Patch { cover: 4, soil: 2, area: 200 }],
        &[Segment::unpaved(300, 200), Segment::given(1200, 250)],
    );
    let woods = subarea(
        &[Patch { cover: 20, soil: 3, area: 600 }],
        &[Segment::unpaved(1500, 300)],
    );
    let built = subarea(
        &[Patch { cover: 12, soil: 3, area: 500 }, Patch { cover: 20, soil: 3, area: 100 }],
        &[Segment::sheet(150, 150, 3600, 200), Segment::paved(1400, 300), Segment::channel(400, 30, 80, 100)],
    );
    let site = Site {
        step: 300,
        first: 1,
        rule: TR55,
        rain: &[0, 60, 150, 300, 600, 1400, 2200, 2500, 2700, 2830, 2920, 2970, 3000],
        list: &[lots, woods],
        pond: &[0, 0, 0, 1000, 12000000, 2000, 2000, 30000000, 9000, 4000, 90000000, 20000],
    };
    let slipped = Site {
        rain: &[0, 60, 150, 300, 600, 1400, 2200, 2500, 2700, 2830, 2920, 2970, 30000], // a slipped decimal
        ..site
    };
    let altered = Site { list: &[lots, built], ..site };
    let too_long = Site { rule: WINTR55, ..altered };
    let mut rows = Rows { inflow: vec![0; 24], outflow: vec![0; 24], storage: vec![0; 24] };
    if let Err((REFUSED_RISE, place)) = study(&slipped, &mut rows) {
        println!("the study with a slipped decimal is refused: {REFUSED_RISE} at {place}");
    }
    if let Err((REFUSED_SEGMENTS, place)) = study(&too_long, &mut rows) {
        println!(
            "the study with sheet flow past 100 ft, by the rule of 100 ft, is refused: {REFUSED_SEGMENTS} at {place}"
        );
    }
    print_study("the study", study(&site, &mut rows));
    print_study("with the second subarea built over", study(&altered, &mut rows));
}
