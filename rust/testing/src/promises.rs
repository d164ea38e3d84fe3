//! The list of promises, and the tests that are made of it.

/// Makes the module `promises`, which has a test for each promise, put to a subject. `tests/listed.rs` sees to it
/// that none is left out.
#[macro_export]
macro_rules! promises {
    ($subject:ty) => {
        $crate::promises! {
            $subject;
            bills:
                small_jobs_cost_the_worked_cents
                colorants_have_their_own_prices
                charges_are_rounded_up_once
                the_largest_job_is_charged
                jobs_are_refused_as_in_the_examples
                windows_of_whole_cents_save_nothing
                windows_of_one_cell_save_all_but_a_cent
                jobs_cost_hardly_less_than_their_windows;
            cellular:
                orders_weights_and_sets_are_the_worked_ones
                sets_8_and_139_have_the_worked_weights
                a_colour_of_two_sets
                a_colour_has_the_worked_bits
                calls_are_refused_as_in_the_examples
                the_lowest_bad_set_is_named
                orders_fall_and_leave_no_colorant_out
                weights_add_up_to_the_counts
                weights_shown_add_up_to_the_counts
                sets_of_mean_primaries_give_the_mean
                full_tones_come_back_exactly;
            false_records:
                false_records_are_refused_as_worked_out
                false_records_are_refused_by_every_call;
            finished_windows:
                flat_windows_hold_the_counts_in_every_brick
                noisy_windows_hold_every_phase_and_tally_their_cells;
            making:
                made_screens_store_their_brick
                refused_screens_are_made_of_zeros
                numbers_are_replaced_as_worked_out
                screens_that_are_handed_in_are_judged_first
                lists_of_replacements_keep_records_true;
            marks:
                bricks_have_the_worked_sizes
                phases_are_the_worked_ones
                counts_are_the_worked_ones
                subscreens_split_the_first_counts
                phase_39_is_white_and_phase_91_blue
                one_cell_is_cyan_from_128_on
                the_last_column_and_the_last_offset_pass
                screens_and_places_are_refused_as_in_the_examples
                renderings_are_refused_as_in_the_examples
                plates_are_refused_as_in_the_example
                plates_set_the_bit_of_each_pixel
                planes_are_the_worked_ones
                a_colour_has_the_worked_bits
                the_first_bad_primary_is_named
                a_fulltone_comes_back_exactly
                bricks_are_stepped_by_s_from_the_sheets_corner;
            motifs:
                motifs_hold_the_counts_wherever_their_columns_begin
                motifs_hold_the_counts_over_the_whole_sheet
                the_worked_motif_has_each_phase_once
                no_motif_where_b_does_not_divide_n;
            moved:
                corners_are_the_worked_ones
                phases_are_those_from_the_corner_on
                parts_have_the_cells_of_the_sheet
                two_moves_are_one
                refused_screens_are_handed_back;
            phases:
                steps_lead_to_the_phases_due;
        }
    };
    ($subject:ty; $($module:ident: $($promise:ident)+;)+) => {
        mod promises {
            $(mod $module {
                $(#[test]
                fn $promise() {
                    $crate::$module::$promise::<$subject>();
                })+
            })+
        }
    };
}
