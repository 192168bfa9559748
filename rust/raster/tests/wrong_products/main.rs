//! Products that are wrong in one thing, each of which the random cases must find. One that the small cases must find too.

mod dense;
mod wrong;

use raster::cases::{compare_cases, compare_small};
use wrong::{Mistake, Wrong};

/// How many random cases find every mistake.
const COUNT: usize = 4_000;

/// Runs the random cases on a product with this mistake, which must fail some of them. It says how many, and which was the first.
fn assert_caught(mistake: Mistake) {
    let mut report = Vec::new();
    let tally = compare_cases(&Wrong(mistake), 1, COUNT, &mut report, false).expect("nothing to go wrong");
    let report = String::from_utf8_lossy(&report);
    let first = report.lines().next().unwrap_or_default();
    println!("{mistake:?}: {} of {COUNT} failed, the first {first}", tally.failed);
    assert!(tally.failed > 0 && tally.passed > 0 && first.ends_with(": FAILED"));
    assert_eq!(report.lines().last(), Some(&format!("{} passed, {} failed", tally.passed, tally.failed)[..]));
}

#[test]
#[cfg_attr(debug_assertions, ignore = "takes minutes without optimisation")]
fn small_cases_find_a_mistake_too() {
    let tally = compare_small(&Wrong(Mistake::AnyFourMerged), &mut Vec::new()).expect("nothing to go wrong");
    assert!(tally.failed > 0 && tally.passed > 0);
}

/// Makes one test of each mistake.
macro_rules! caught {
    ($($name:ident: $mistake:ident,)*) => {
        $(
            #[test]
            fn $name() {
                assert_caught(Mistake::$mistake);
            }
        )*
    };
}

caught! {
    east_for_north: EastForNorth,
    ground_rounded: GroundRounded,
    negative_zero_refused: NegativeZeroRefused,
    cell_sides_not_compared: CellSidesNotCompared,
    whole_cells_before_cell_sides: WholeCellsBeforeCellSides,
    lookup_row_minus_one_reads_row_zero: LookupRowMinusOneReadsRowZero,
    lookup_by_column_and_row: LookupByColumnAndRow,
    neighbour_beyond_is_the_block: NeighbourBeyondIsTheBlock,
    neighbour_of_unaligned_code: NeighbourOfUnalignedCode,
    row_minus_one_reads_row_zero: RowMinusOneReadsRowZero,
    beyond_is_not_white: BeyondIsNotWhite,
    intersection_keeps_first_colour: IntersectionKeepsFirstColour,
    union_prefers_second_colour: UnionPrefersSecondColour,
    difference_keeps_second_colour: DifferenceKeepsSecondColour,
    colours_are_bits: ColoursAreBits,
    offsets_exchanged: OffsetsExchanged,
    window_ignored: WindowIgnored,
    window_of_second_map: WindowOfSecondMap,
    only_north_west_quarter: OnlyNorthWestQuarter,
    output_unmerged: OutputUnmerged,
    any_four_merged: AnyFourMerged,
    no_room_off_by_one: NoRoomOffByOne,
    no_room_before_merging: NoRoomBeforeMerging,
    no_room_number_is_space: NoRoomNumberIsSpace,
    position_off_by_one: PositionOffByOne,
    position_is_length: PositionIsLength,
    spare_bits_ignored: SpareBitsIgnored,
    entries_behind_the_end_ignored: EntriesBehindTheEndIgnored,
    list_before_offset: ListBeforeOffset,
    second_list_before_first: SecondListBeforeFirst,
    offset_before_size: OffsetBeforeSize,
    wrong_axis: WrongAxis,
    window_size_is_first: WindowSizeIsFirst,
    farthest_refused: FarthestRefused,
    largest_size_refused: LargestSizeRefused,
    raster_by_columns: RasterByColumns,
    raster_length_not_checked: RasterLengthNotChecked,
    list_before_raster_length: ListBeforeRasterLength,
    writes_on_refusal: WritesOnRefusal,
    writes_one_past_count: WritesOnePastCount,
    writes_nothing: WritesNothing,
    refuses_all: RefusesAll,
    always_one_leaf: AlwaysOneLeaf,
}
