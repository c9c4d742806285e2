//! Numbers at the edges of 16 and of 32 bits (ticket 3 of document 02): what
//! this program works out against plain arithmetic of 128 bits, how wide the
//! products and sums of the formulas are, and what the cases made for it give.

use second::board::Board;
use second::drive::Drive;
use second::iopb::fields_at;
use second::look::look_number;
use second::makers::cases::random_case;
use second::makers::edges::{wide_ends, wide_places, wide_sizes, wide_tables};
use second::makers::script::Script;
use second::pick::pick;
use second::place::{place, Place};
use second::record::Record;
use second::run::{run_picks, run_written};
use second::trial::answer::Answer;
use second::trial::line::Line;
use second::trial::state::State;
use second::trial::stream::count_cases;
use second::trial::wide::names;
use second::walk::walk;

const READ: u8 = 2;
const BITS_32: u128 = 1 << 32;
/// Values of 8 and of 16 bits at their ends and in the middle.
const BYTES: [u8; 6] = [0, 1, 127, 128, 254, 255];
const WORDS: [u16; 10] = [0, 1, 255, 256, 32_766, 32_767, 32_768, 65_533, 65_534, 65_535];

fn drive(max_cylinder: u16, max_head: u8, max_sector: u8, last: u8) -> Drive {
    let last_head_max_sector = last;
    Drive { max_cylinder, max_head, max_sector, last_head_max_sector, protected: false }
}

/// Every drive with such maxima, the last head never the longer.
fn corner_drives() -> Vec<Drive> {
    let mut drives = Vec::new();
    for cylinder in WORDS {
        for head in BYTES {
            for sector in BYTES {
                let last = BYTES.into_iter().filter(|last| *last <= sector);
                drives.extend(last.map(|last| drive(cylinder, head, sector, last)));
            }
        }
    }
    drives
}

/// The formulas in 128 bits, with every product by itself.
struct Wide {
    track: u128,
    full_tracks: u128,
    per_cylinder: u128,
    sectors: u128,
    bytes: u128,
}

fn wide(drive: &Drive) -> Wide {
    let track = u128::from(drive.max_sector) + 1;
    let full_tracks = u128::from(drive.max_head) * track;
    let per_cylinder = full_tracks + u128::from(drive.last_head_max_sector) + 1;
    let sectors = (u128::from(drive.max_cylinder) + 1) * per_cylinder;
    Wide { track, full_tracks, per_cylinder, sectors, bytes: 512 * sectors }
}

/// The place of a number, with its number of the call.
fn wide_place(drive: &Drive, number: u128) -> (u8, Place) {
    let wide = wide(drive);
    if number >= wide.sectors {
        return (10, Place::default());
    }
    let rest = number % wide.per_cylinder;
    let place = Place {
        cylinder: (number / wide.per_cylinder) as u64,
        head: (rest / wide.track) as u64,
        sector: (rest % wide.track) as u64,
    };
    (0, place)
}

#[test]
fn counts_and_sizes_in_128_bits() {
    for drive in corner_drives() {
        let wide = wide(&drive);
        assert_eq!(u128::from(drive.sectors_per_cylinder()), wide.per_cylinder, "{drive:?}");
        assert_eq!(u128::from(drive.number_of_sectors()), wide.sectors, "{drive:?}");
        // An image is right for a drive exactly if it has its bytes.
        for sectors in [0, 1, 2, 128, 256] {
            let image = vec![0; 512 * sectors];
            let right = wide.bytes == image.len() as u128;
            let board = Board::with_unit_0(Vec::new(), drive, image);
            assert_eq!(board.images_right(), right, "{drive:?}");
            assert_eq!(look_number(&board, 0, 0), u8::from(!right), "{drive:?}");
        }
    }
}

#[test]
fn sector_numbers_in_128_bits() {
    for drive in corner_drives() {
        let wide = wide(&drive);
        for cylinder in WORDS.map(u128::from) {
            for head in BYTES.map(u128::from) {
                for sector in BYTES.map(u128::from) {
                    let number = cylinder * wide.per_cylinder + head * wide.track + sector;
                    let ours = drive.sector_number(cylinder as u64, head as u64, sector as u64);
                    assert_eq!(u128::from(ours), number, "{drive:?}");
                }
            }
        }
    }
}

#[test]
fn places_in_128_bits() {
    for drive in corner_drives() {
        let wide = wide(&drive);
        let last_cylinder = wide.sectors - wide.per_cylinder;
        let middle = wide.sectors / 3 * 2 + 1;
        for edge in [1, wide.track, wide.per_cylinder, last_cylinder, middle, wide.sectors] {
            for number in [edge.saturating_sub(1), edge] {
                // The largest number that the call can be given has 32 bits.
                if number < BITS_32 {
                    let expected = wide_place(&drive, number);
                    assert_eq!(place(&drive, number as u64), expected, "{number} {drive:?}");
                }
            }
        }
    }
}

/// No product that makes a sector's number is wider than 32 bits, whatever the
/// command names, nor is their sum; the number of sectors is, on one drive.
#[test]
fn how_wide_the_formulas_are() {
    let (mut of_heads, mut of_cylinders, mut number, mut sectors) = (0, 0, 0, 0);
    for drive in corner_drives() {
        let wide = wide(&drive);
        of_heads = of_heads.max(wide.full_tracks).max(255 * wide.track);
        of_cylinders = of_cylinders.max(65_535 * wide.per_cylinder);
        number = number.max(65_535 * wide.per_cylinder + 255 * wide.track + 255);
        sectors = sectors.max(wide.sectors);
        let largest = drive == self::drive(65_535, 255, 255, 255);
        assert_eq!(wide.sectors >= BITS_32, largest, "{drive:?}");
        assert!(wide.per_cylinder <= 65_536 && wide.sectors - 1 < BITS_32, "{drive:?}");
    }
    assert_eq!(of_heads, 255 * 256);
    assert_eq!(of_cylinders, 65_535 * 65_536);
    assert_eq!(number, BITS_32 - 1);
    // 33 bits, and its bytes 42.
    assert_eq!(sectors, BITS_32);
    assert_eq!(512 * sectors, 1 << 41);
}

/// What one command can name on a drive that has an image: 65,535 x 32,768 is
/// below 2 to the 31, and the head takes the sum past it.
#[test]
fn the_largest_record() {
    for (max_head, max_sector, largest) in
        [(127, 255, 2_147_516_415), (255, 127, 2_147_483_775), (0, 0, 66_045)]
    {
        let drive = drive(0, max_head, max_sector, max_sector);
        assert!(drive.number_of_sectors() <= 32_768);
        assert_eq!(drive.sector_number(65_535, 255, 255), largest);
    }
    assert_eq!(65_535 * 32_768, (1_u64 << 31) - 32_768);
}

/// Plays the cases of one maker, and shows each line with its answer and the
/// state after it.
fn play(maker: fn(&mut Script), mut show: impl FnMut(&State, &Line, &Answer)) {
    let mut script = Script::default();
    maker(&mut script);
    let mut state = State::default();
    for line in &script.lines {
        let answer = state.play(line).expect("the cases keep their patches inside");
        show(&state, line, &answer);
    }
}

/// The number of a call that asks for sizes, and the word of the call.
fn number_of(answer: &Answer) -> Option<(&'static str, u8)> {
    match answer {
        Answer::Walk { word, reply } => Some((word, reply.number)),
        Answer::Pick { word, number } => Some((word, *number)),
        Answer::Picks(reply) => Some(("picks", reply.number)),
        Answer::Written(reply) => Some(("written", reply.number)),
        Answer::Look { number, .. } => Some(("look", *number)),
        _ => None,
    }
}

#[test]
fn the_places_of_the_cases() {
    let mut numbers = Vec::new();
    play(wide_places::all, |state, line, answer| {
        if let (Line::Place(asked), Answer::Place { number, place }) = (line, answer) {
            let expected = wide_place(&state.board.units[0].drive, u128::from(*asked));
            assert_eq!((*number, *place), expected, "{asked} {:?}", state.board.units[0].drive);
            numbers.push(*number);
        }
        if let (Line::Look { sector: asked, .. }, Some((_, number))) = (line, number_of(answer)) {
            assert_eq!(number, if *asked == 3 { 0 } else { 10 });
        }
    });
    assert!(numbers.contains(&0) && numbers.contains(&10));
}

#[test]
fn the_largest_drive_by_hand() {
    let largest = drive(65_535, 255, 255, 255);
    for (number, (cylinder, head, sector)) in [
        (0, (0, 0, 0)),
        (255, (0, 0, 255)),
        (256, (0, 1, 0)),
        (65_535, (0, 255, 255)),
        (65_536, (1, 0, 0)),
        (2_147_483_647, (32_767, 255, 255)),
        (2_147_483_648, (32_768, 0, 0)),
        (4_294_901_759, (65_534, 255, 255)),
        (4_294_901_760, (65_535, 0, 0)),
        (4_294_967_295, (65_535, 255, 255)),
    ] {
        assert_eq!(place(&largest, number), (0, Place { cylinder, head, sector }));
        assert_eq!(largest.sector_number(cylinder, head, sector), number);
    }
}

#[test]
fn drives_near_the_edges_by_hand() {
    // The drive, its largest number, and the first of its last cylinder.
    for (drive, largest, first) in [
        (drive(65_535, 255, 255, 254), 4_294_901_759, 4_294_836_225),
        (drive(65_534, 255, 255, 255), 4_294_901_759, 4_294_836_224),
        (drive(65_535, 254, 255, 255), 4_278_190_079, 4_278_124_800),
        (drive(65_535, 255, 254, 254), 4_278_190_079, 4_278_124_800),
        (drive(32_767, 255, 255, 255), 2_147_483_647, 2_147_418_112),
        (drive(0, 255, 255, 254), 65_534, 0),
        (drive(1, 255, 255, 254), 131_069, 65_535),
        (drive(1, 128, 255, 0), 65_537, 32_769),
        (drive(65_535, 0, 0, 0), 65_535, 65_535),
    ] {
        let (number, last) = place(&drive, largest);
        assert_eq!((number, last.cylinder), (0, u64::from(drive.max_cylinder)));
        assert_eq!(last.head, u64::from(drive.max_head));
        assert_eq!(last.sector, u64::from(drive.last_head_max_sector));
        assert_eq!(place(&drive, largest + 1), (10, Place::default()));
        let start = Place { cylinder: last.cylinder, head: 0, sector: 0 };
        assert_eq!(place(&drive, first), (0, start));
        if first > 0 {
            assert_eq!(place(&drive, first - 1).1, Place { cylinder: last.cylinder - 1, ..last });
        }
    }
}

/// Every call of these cases gives 1 exactly where the image has not the bytes
/// of its drive in 128 bits; and fewer bits would have hidden it.
#[test]
fn the_sizes_of_the_cases() {
    let mut refused: Vec<&str> = Vec::new();
    let mut taken: Vec<&str> = Vec::new();
    play(wide_sizes::all, |state, _, answer| {
        let Some((word, number)) = number_of(answer) else { return };
        let (board, image) = (&state.board, state.board.units[0].image.len() as u128);
        let wide = wide(&board.units[0].drive);
        assert_eq!(number == 1, wide.bytes != image, "{word} {:?}", board.units[0].drive);
        if number != 1 {
            taken.push(word);
            return;
        }
        refused.push(word);
        // The largest drive tempts nobody with an image that is not empty.
        let largest_with_some = wide.sectors == BITS_32 && image > 0;
        let hidden = |bits: u32| wide.bytes % (1 << bits) == image;
        assert_eq!((16..=41).any(hidden), !largest_with_some, "{:?}", board.units[0].drive);
    });
    for word in ["walk", "lentwalk", "pick", "lentpick", "picks", "written", "look"] {
        assert!(refused.contains(&word) && taken.contains(&word), "{word}");
    }
}

/// The numbers of the calls that ask for sizes: walk, pick, both runs and look.
fn numbers(drive: Drive, sectors: usize) -> [u8; 5] {
    let image = vec![7; 512 * sectors];
    let mut board = Board::with_unit_0(vec![0; 1_024], drive, image);
    let mut table = [Record::default(); 32];
    table[0] = Record { count: 1, byte0: READ, data: 0x200, ..Record::default() };
    [
        walk(&board, &mut table.clone(), 0).number,
        run_picks(&mut board, &mut table, 1, &[]).number,
        run_written(&mut board, &mut table, 1, 0).number,
        look_number(&board, 0, 0),
        pick(&mut board, &mut table, 1, 0),
    ]
}

#[test]
fn sizes_by_hand() {
    for (sectors, right, wrong) in [
        // 160, 32,800, 65,568 and 8,388,640 sectors beside 32.
        (32, drive(1, 1, 7, 7), drive(4, 1, 15, 15)),
        (32, drive(0, 3, 9, 1), drive(0, 128, 255, 31)),
        (32, drive(1, 1, 7, 7), drive(2_048, 1, 15, 15)),
        (32, drive(1, 1, 7, 7), drive(1, 128, 255, 15)),
        (32, drive(1, 1, 7, 7), drive(52_428, 9, 15, 15)),
        (32, drive(0, 0, 31, 31), drive(682, 2, 31, 31)),
        (32, drive(0, 0, 31, 31), drive(52_428, 4, 31, 31)),
        (32, drive(1, 1, 7, 7), drive(65_535, 255, 255, 255)),
        (2, drive(0, 0, 1, 1), drive(3_969, 16, 131, 0)),
        (1, drive(0, 0, 0, 0), drive(65_534, 255, 255, 254)),
    ] {
        assert_eq!(numbers(right, sectors), [0; 5], "{right:?}");
        assert_eq!(numbers(wrong, sectors), [1; 5], "{wrong:?}");
    }
    for none_left in [drive(65_535, 255, 255, 255), drive(127, 255, 255, 255)] {
        assert_eq!(numbers(none_left, 0), [1; 5], "{none_left:?}");
    }
}

/// The code that stands so many times, then the next, and so on.
fn times(codes: &[(usize, u8)]) -> Vec<u8> {
    codes.iter().flat_map(|(number, code)| vec![*code; *number]).collect()
}

/// The codes of every accepted walk in these cases.
fn codes_of_walks(maker: fn(&mut Script)) -> Vec<Vec<u8>> {
    let mut walks = Vec::new();
    play(maker, |state, _, answer| {
        if let Answer::Walk { reply, .. } = answer {
            let in_use = &state.table[..reply.commands as usize];
            walks.push(in_use.iter().map(|record| record.code).collect());
        }
    });
    walks
}

#[test]
fn the_codes_of_the_cases() {
    let walks = codes_of_walks(wide_ends::all);
    // Eight chains of places come first, and then the ends.
    let ends = &walks[8..];
    let bench = |code| vec![(1, code), (1, 0x10), (1, code), (14, 0x10)];
    assert_eq!(ends[0], times(&bench(0x00)));
    assert_eq!(ends[1], times(&bench(0x90)));
    let largest = [(1, 0x00), (1, 0x10), (1, 0x4B), (5, 0x10), (1, 0x4B), (3, 0x10), (1, 0x4B)];
    assert_eq!(ends[2], [times(&largest), times(&[(2, 0x10)])].concat());
    for command in [0, 1] {
        let about_16 = times(&[(1, 0x00), (6, 0x4B), (1, 0x00), (8, 0x4B)]);
        assert_eq!(ends[3 + command], about_16);
        assert_eq!(ends[5 + command], times(&[(14, 0x4B), (2, 0x00)]));
    }
    assert_eq!(ends[7], times(&[(1, 0x00), (18, 0x4B), (1, 0x10)]));
    for bits_more in &ends[8..14] {
        assert_eq!(*bits_more, times(&[(1, 0x00), (20, 0x4B)]));
    }
    // A chain of two and its second alone, and then none is in memory.
    assert_eq!(ends[14..16], [vec![0x00, 0x00], vec![0x00]]);
    assert_eq!(ends[16..56], vec![Vec::<u8>::new(); 40]);
    assert_eq!(ends[56], times(&[(1, 0x00), (9, 0x4B)]));
    assert_eq!(ends[57], times(&[(1, 0x00), (8, 0x4B)]));
    let ranges = ends[58..74].concat();
    assert_eq!(ranges, times(&[(4, 0x00), (12, 0x4B)]));
    assert_eq!(ends[74..], [times(&[(16, 0x00)])]);
}

/// Every record that a walk of these cases leaves has the number of its sector
/// by the formula; 2 to the 16, 24 and 31 come up, and one less than each.
#[test]
fn the_records_of_the_cases() {
    let mut found = Vec::new();
    play(wide_ends::all, |state, _, answer| {
        let Answer::Walk { reply, .. } = answer else { return };
        if reply.number != 0 {
            return;
        }
        let wide = wide(&state.board.units[0].drive);
        for (record, address) in state.table.iter().zip(&reply.reached) {
            let fields = fields_at(&state.board, *address);
            let (cylinder, head) = (u128::from(fields.cylinder), u128::from(fields.head));
            // Every unit but 0 is absent here: one sector a track and a cylinder.
            let (per_cylinder, track) =
                if fields.unit == 0 { (wide.per_cylinder, wide.track) } else { (1, 1) };
            let number = cylinder * per_cylinder + head * track + u128::from(fields.sector);
            assert_eq!(u128::from(record.sector), number, "{:?}", state.board.units[0].drive);
            found.push(number);
        }
    });
    for bits in [16, 24, 31] {
        assert!(found.contains(&(1 << bits)) && found.contains(&((1 << bits) - 1)), "{bits}");
    }
    assert_eq!(found.iter().max(), Some(&2_147_516_415));
}

/// Number 9 where one of the sums of the only record is too large in 128 bits.
fn spoiled(board: &Board, record: &Record) -> bool {
    let memory = board.memory.len() as u128;
    let count = u128::from(record.count);
    let moves = record.code == 0 && [1, 2].contains(&(record.byte0 & 0x0F));
    let steps = if moves { count } else { 1 };
    u128::from(record.iopb) + 30 > memory
        || u128::from(record.taken) > steps
        || moves && u128::from(record.data) + 512 * count > memory
        || moves && u128::from(record.sector) + count > wide(&board.units[0].drive).sectors
}

#[test]
fn the_tables_of_the_cases() {
    let (mut right, mut wrong) = (0, 0);
    play(wide_tables::all, |state, line, answer| {
        if let Answer::Steps(steps) = answer {
            let in_use = state.commands.min(32) as usize;
            let counts = state.table[..in_use].iter().map(|record| match record.byte0 {
                0 => 1,
                _ => u64::from(record.count),
            });
            assert_eq!(*steps, counts.sum::<u64>());
        }
        let looked = matches!(line, Line::Look { .. });
        let (Some((_, number)), false) = (number_of(answer), looked) else {
            return;
        };
        let nine = spoiled(&state.board, &state.table[0]);
        assert_eq!(number == 9, nine, "{:?}", state.table[0]);
        *(if nine { &mut wrong } else { &mut right }) += 1;
    });
    assert!(right > 0 && wrong > 0);
}

#[test]
fn tables_by_hand() {
    // The first sector, the data, the count, and the number of a pick.
    for (sector, data, count, expected) in [
        (255, 0x400, 1, 0),
        (256, 0x400, 1, 9),
        (65_436, 0x400, 100, 9),
        (65_535, 0x400, 1, 9),
        (0xFFFF_FFFF, 0x400, 1, 9),
        (0xFFFF_FFFF, 0x400, 100, 9),
        (0xFFFF_FF9C, 0x400, 100, 9),
        (0, 0, 128, 0),
        (0, 1, 128, 9),
        (0, 512, 127, 0),
        (0, 513, 127, 9),
        (0, 0, 129, 9),
        (0, 65_024, 129, 9),
        (0, 65_024, 1, 0),
        (0, 0xFFFF_FE00, 1, 9),
        (0, 0xFFFF_0000, 128, 9),
    ] {
        let image = vec![3; 512 * 256];
        let mut board = Board::with_unit_0(vec![0; 65_536], drive(0, 0, 255, 255), image);
        let mut table = [Record::default(); 32];
        table[0] = Record { sector, data, count, byte0: READ, ..Record::default() };
        assert_eq!(run_written(&mut board, &mut table, 1, 0).number, expected);
        assert_eq!(pick(&mut board, &mut table, 1, 0), expected);
    }
}

/// Random cases come to each of these edges too, without those made by hand.
#[test]
fn random_cases_reach_the_edges() {
    let text: String = (0..3_000).map(|n| random_case(1, n).text()).collect();
    let rows = count_cases(text.as_bytes()).expect("the makers keep to the format").rows();
    for name in names() {
        let (_, count) = rows.iter().find(|(row, _)| *row == name).expect("it is a row");
        assert!(*count > 0, "{name} never came up");
    }
}
