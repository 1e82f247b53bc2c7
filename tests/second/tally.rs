//! What a test can claim to have reached; counted for the corpus summary, never printed by
//! `run`, `trace`, `why` or `calls`.

macro_rules! tallies {
    ($($name:ident)*) => {
        #[allow(non_camel_case_types)]
        #[derive(Clone, Copy, PartialEq)]
        pub enum Did { $($name),* }
        pub const DID: &[&str] = &[$(stringify!($name)),*];
    };
}

tallies! {
    first_sending repeat_of_pause repeat_of_last repeat_in_resume_delay repeat_on_last_delay_tick
    repeat_dropped_in_silence kept_word_differs_from_memory
    last_by_d31 last_by_depth last_over_pause_bits two_pause_bits
    pause_1 pause_2 pause_3 pause_4 pause_vme
    resume_1 resume_2 resume_3 resume_4 resume_vme
    resume_of_other_pause resume_while_resuming
    start_by_event start_by_command start_disarmed restart restart_after_last restart_from_pause
    run_latched eof_latched ee_by_group_end ee_by_user_change
    group_end_by_event group_end_by_command group_end_not_idle group_end_idle group_end_disarmed
    group_end_then_start start_then_resume
    switch_current_user switch_other_user switch_withdrawn
    user_changed user_same disarm_not_idle disarm_idle arm_armed reset_not_idle reset_idle reset_without_d0
    kept lost unasked_idle unasked_before_send unasked_seventh kept_in_new_start_delay
    crc_wrong_kept crc_wrong_lost crc_wrong_unasked
    kept_first kept_paused kept_last
    main_bit_raised main_bit_not_enabled event_came channel_status_read main_status_read
    level_not_zero level_zero_while_latched clock_changed_while_running
    setpoint_inactive_while_armed setpoint_active_while_disarmed
    part_empty part_not_empty count_shown_not_zero count_past_16_bits
    tick_refused write_refused_1 event_refused_1 setpoint_refused_1 reply_refused_1 retired_refused_1
    open_refused opened_again
    command_by_d0 command_by_d1 command_by_both_bits command_with_auxiliary command_fields_changed
    command_by_d0_after_start command_by_d1_after_start command_by_d0_after_group_end command_after_user_change
    command_while_disarmed command_clears_count command_not_in_setpoint_count
    command_due_by_event command_due_by_command command_due_by_event_with_start command_due_by_command_with_start
    command_due_while_disarmed
    command_first_of_many_ticks command_and_setpoint_in_one_record command_waits_through_many_ticks
    command_on_two_channels_at_once
    command_d0_replaced_by_d1 command_d1_replaced_by_d0 command_due_d1_replaced_by_d0 command_due_d1_replaced_by_d1
    command_stays_without_bits command_refused_disarmed command_refused_not_idle command_refused_both_bits
    command_refused_while_waiting
    command_dropped_by_disarm command_dropped_by_disarm_of_disarmed command_dropped_by_reset
    command_reply_kept command_reply_sixth command_reply_seventh command_reply_crc_wrong command_reply_with_auxiliary
    command_reply_while_disarmed command_reply_in_start_delay command_reply_with_full_buffer
    command_reply_after_setpoint command_reply_after_group_end
    command_window_closed_by_setpoint command_window_closed_by_group_end command_window_closed_by_reset
    command_window_open_at_user_change
    command_fields_read command_pair_read command_old_pair_read command_count_read
    missing_1 missing_2 missing_3 missing_4 missing_5 missing_6 missing_none_of_six missing_other_id
    missing_id_changed_from_15 missing_id_changed_to_15 missing_with_lost_reply missing_none_with_lost_reply
    missing_at_next_word missing_at_repeat_of_pause missing_at_repeat_of_last missing_repeat_after_repeat
    missing_with_pause missing_with_eof missing_across_resume missing_across_restart missing_across_restart_with_replies
    missing_idled_by_group_end missing_idled_by_disarm missing_idled_by_user_change missing_idled_by_reset
    missing_command_before missing_command_replies_before
    missing_reaches_255 missing_cut_to_255 missing_stays_255 missing_latched_at_255
    missing_latched_again missing_main_bit_raised missing_main_bit_not_enabled
    missing_on_two_channels_at_once missing_many_in_one_record missing_none_then_six_in_one_record
    missing_some_then_six_in_one_record missing_reaches_255_in_one_record
    missing_count_read missing_255_read missing_d4_kept_over_count_read
    missing_kept_over_group_end missing_kept_over_disarm missing_kept_over_user_change missing_kept_over_status_read
    missing_cleared_by_read missing_cleared_by_reset missing_cleared_by_opening missing_count_written
    end_word end_word_of_empty_group end_word_of_two_empty_groups end_word_in_last_place_but_one end_word_right_after_lost
    end_word_in_last_place_by_event end_word_in_last_place_by_command end_word_in_last_place_with_start
    end_word_in_last_place_while_idle end_word_in_last_place_while_disarmed end_word_in_last_place_of_buffer_2
    end_word_in_last_word_lent end_word_in_last_place_with_none_lost
    end_word_older_in_same_place end_word_older_stands_after end_word_older_stands_in_last_place
    end_word_older_overwritten_by_readback
    end_word_in_same_buffer_after_reset end_word_after_reset_of_full end_word_reply_kept_after_reset_of_full
    end_word_reply_fills end_word_reply_lost end_word_reply_lost_after_one_kept end_word_reply_kept_after_full
    end_word_of_depth_1_reply_lost end_word_of_depth_1_sixth_lost end_word_of_depth_1_after_lost
    end_word_of_depth_1_command_reply end_word_of_depth_1_part end_word_of_depth_2_in_last_place
    end_word_part_of_full_buffer end_word_part_empty_after_reset end_word_in_part end_word_of_closed_board
    ramp_written ramp_on_open_board ramp_on_closed_board ramp_while_a_function_runs
    ramp_of_2_breakpoints ramp_of_3_to_63_breakpoints ramp_of_64_breakpoints
    ramp_of_n_2 ramp_of_n_1024 ramp_to_n_less_1 ramp_to_below_n_less_1
    ramp_code_below_0 ramp_code_least ramp_code_most ramp_least_to_most ramp_most_to_least
    ramp_rising_above_0_with_remainder ramp_rising_below_0_with_remainder ramp_rising_through_0_with_remainder
    ramp_falling_above_0_with_remainder ramp_falling_below_0_with_remainder ramp_falling_through_0_with_remainder
    ramp_flat_slope ramp_steep_slope ramp_remainder_0_between ramp_level ramp_of_width_1 ramp_of_width_1023
    ramp_codes_just_fit ramp_remainders_just_fit ramp_later_words_below_n ramp_later_words_from_n
    ramp_over_high_bits ramp_over_older_last_word ramp_before_older_last_word
    ramp_refused_on_open_board ramp_refused_on_closed_board ramp_refused_leaves_codes ramp_refused_leaves_remainders
    ramp_refused_0_breakpoints ramp_refused_1_breakpoint ramp_refused_65_breakpoints ramp_refused_over_65_breakpoints
    ramp_refused_n_0 ramp_refused_n_1 ramp_refused_n_over_range ramp_refused_n_of_range_over_lent
    ramp_refused_first_index ramp_refused_equal_neighbours ramp_refused_falling_neighbours ramp_refused_first_pair
    ramp_refused_last_pair ramp_refused_last_is_n ramp_refused_last_above_n ramp_refused_last_all_ones
    ramp_refused_codes_one_short ramp_refused_remainders_one_short ramp_refused_codes_with_room
    ramp_refused_remainders_with_room
    tag_register_read tag_register_read_without_high_bits tag_register_read_after_reset
    tag_by_event tag_by_event_with_group_end tag_by_event_with_start tag_by_event_with_group_end_and_start
    tag_by_event_with_resume tag_by_event_of_register_with_high_bits
    tag_by_command tag_by_command_with_group_end tag_by_command_with_start tag_by_command_with_group_end_and_start
    tag_by_command_with_resume
    tag_while_idle tag_in_start_delay tag_in_start_gap tag_in_new_start_delay tag_between_words tag_while_paused
    tag_in_resume_delay tag_in_silent_ticks tag_while_last_repeats
    tag_again_before_send tag_of_several_ended tag_on_two_channels_at_once
    tag_event_disarmed tag_event_inactive tag_event_refused tag_event_of_other_channel
    tag_command_disarmed tag_command_refused tag_command_of_other_channel
    tag_kept_over_user_change tag_kept_over_same_user tag_kept_over_arm tag_kept_over_restart tag_kept_over_resume
    tag_kept_over_reset_without_d0 tag_kept_over_register_write tag_kept_over_drop_on_other_channel
    tag_kept_over_refused_drop_by_event tag_kept_over_refused_drop_by_command tag_kept_over_refused_drop_by_reset
    tag_kept_over_command_by_d0 tag_kept_over_command_by_d1 tag_kept_over_command_reply tag_of_group_end_kept_over_command
    tag_kept_over_reply tag_kept_through_many_ticks
    tag_dropped_by_group_end_event tag_dropped_by_group_end_command tag_dropped_by_group_end_with_start
    tag_dropped_by_group_end_while_idle tag_dropped_by_disarm tag_dropped_by_disarm_while_idle
    tag_dropped_by_reset tag_dropped_by_reset_while_idle tag_dropped_by_opening
    tag_used_by_first_word tag_used_by_next_word tag_used_by_word_after_resume tag_used_by_repeat_of_pause
    tag_used_by_repeat_in_resume_delay tag_used_by_repeat_of_last tag_used_right_after_tagged_send
    tag_used_by_send_with_shortfall tag_used_by_only_send_of_record
    tag_ended_by_first_word tag_ended_by_next_word tag_ended_by_word_after_resume tag_ended_by_repeat_of_pause
    tag_ended_by_repeat_in_resume_delay tag_ended_by_repeat_of_last
    tag_used_and_ended_in_one_record tag_used_early_in_long_record tag_send_with_shortfall
    tag_reply_kept tag_reply_sixth tag_reply_unasked tag_reply_crc_wrong tag_reply_lost tag_reply_crc_wrong_lost
    tag_reply_in_new_start_delay tag_reply_after_resume tag_reply_after_more_ticks tag_reply_after_next_tag
    tag_after_send_before_reply
    tag_with_no_flag tag_with_d31 tag_with_d30 tag_with_d29 tag_with_d31_and_d30 tag_with_d31_and_d29 tag_of_other_user
    tag_in_part tag_word_like_end_word tag_word_like_end_word_in_part tag_words_like_end_word_in_part
    tag_word_like_end_word_begins_part tag_word_like_end_word_ends_part
    volts_while_idle volts_while_idle_after_unasked volts_while_idle_after_command_replies
    volts_in_start_delay volts_in_start_delay_after_unasked volts_in_start_delay_after_command_replies
    volts_after_no_reply volts_after_1_reply volts_after_2_replies volts_after_3_replies volts_after_4_replies
    volts_after_5_replies volts_after_6_replies
    volts_third_read volts_third_damaged volts_third_lost volts_third_lost_crc_wrong
    volts_fourth_read volts_fourth_damaged volts_fourth_lost volts_fourth_lost_crc_wrong
    volts_fifth_read volts_fifth_damaged volts_fifth_lost volts_fifth_lost_crc_wrong
    volts_sixth_read volts_sixth_damaged volts_sixth_lost volts_sixth_lost_crc_wrong
    volts_lost_from_first volts_lost_from_second volts_lost_from_third volts_lost_from_fourth volts_lost_from_fifth
    volts_lost_from_sixth volts_of_depth_1
    volts_four_at_once volts_four_damaged volts_read_after_damaged volts_read_before_damaged volts_read_after_wrong_first_two
    volts_code_0 volts_code_1 volts_code_most volts_code_least volts_code_minus_1
    volts_after_seventh volts_after_seventh_with_wrong_crc volts_after_seventh_when_sixth_is_lost
    volts_after_seventh_when_sixth_is_damaged volts_after_reply_refused_1 volts_after_reply_refused_7
    volts_of_send_after_unasked_while_idle volts_of_send_after_unasked_in_start_delay volts_of_send_after_command_replies
    volts_read_in_new_start_delay volts_read_while_resuming volts_read_while_tag_is_pending
    volts_of_reply_with_auxiliary volts_of_reply_of_other_id
    volts_of_plain_word volts_of_first_word volts_of_paused_word volts_of_last_word volts_of_repeat volts_of_other_user
    volts_of_tagged_send volts_of_send_of_id_15 volts_of_send_of_other_id
    volts_lost_by_first_word volts_lost_by_next_word volts_lost_by_word_after_resume volts_lost_by_repeat_of_pause
    volts_lost_by_repeat_in_resume_delay volts_lost_by_repeat_of_last volts_lost_by_many_sends_in_one_record
    volts_lost_by_group_end_event volts_lost_by_group_end_command volts_lost_by_group_end_with_start
    volts_lost_by_group_end_before_send volts_lost_by_disarm volts_lost_by_disarm_before_send
    volts_lost_by_user_change volts_lost_by_user_change_before_send volts_lost_by_user_change_and_back
    volts_lost_by_reset volts_lost_by_reset_before_send volts_lost_by_opening volts_lost_by_refused_opening
    volts_kept_over_restart volts_kept_over_resume volts_kept_over_tag volts_kept_over_arm volts_kept_over_same_user
    volts_kept_over_reset_without_d0 volts_kept_over_retired volts_kept_over_command_asked volts_kept_over_command_refused
    volts_kept_over_status_read volts_kept_over_count_read volts_kept_over_register_write volts_kept_over_setpoint_write
    volts_kept_over_event_of_no_meaning
    volts_kept_over_refused_group_end volts_kept_over_refused_reset volts_kept_over_refused_user volts_kept_over_refused_tick
    volts_kept_over_send_of_other_channel volts_kept_over_reply_of_other_channel volts_kept_over_group_end_of_other_channel
    volts_kept_over_disarm_of_other_channel volts_kept_over_reset_of_other_channel volts_kept_through_many_ticks
    volts_asked_again volts_asked_between_replies volts_whatever_lent_code
    volts_of_channel_1 volts_of_channel_2 volts_of_channel_3 volts_of_channel_4
    volts_beside_other_readings volts_lost_beside_other_readings
    volts_of_closed_board volts_refused_channel_0 volts_refused_channel_5 volts_refused_channel_255
    volts_refused_with_low_bits_of_channel volts_refused_on_closed_board
    download_opened_of_0 download_opened_of_some download_opened_of_full_part download_opened_of_depth_1
    download_opened_of_buffer_1 download_opened_of_buffer_2
    download_opened_of_channel_1 download_opened_of_channel_2 download_opened_of_channel_3 download_opened_of_channel_4
    download_opened_on_closed_board download_opened_whatever_lent_code
    download_opened_while_disarmed download_opened_while_idle download_opened_in_start_delay download_opened_while_running
    download_opened_again download_opened_again_after_portion
    download_opened_anew_of_other_count download_opened_anew_after_reset
    download_opening_refused_channel_0 download_opening_refused_channel_5 download_opening_refused_channel_255
    download_opening_refused_with_low_bits_of_channel download_opening_refused_on_closed_board
    download_portion_of_all download_portion_of_first_words download_portion_of_middle_words download_portion_of_last_words
    download_portion_to_end_of_full_part
    download_portion_of_channel_1 download_portion_of_channel_2 download_portion_of_channel_3 download_portion_of_channel_4
    download_portion_past_count_of_later_opening
    download_portion_again download_portion_before_the_last download_portion_after_gap
    download_length_0_below_count download_length_0_at_count download_length_0_of_count_0 download_length_0_of_depth_1
    download_length_0_on_closed_board
    download_words_of_buffer_1 download_words_of_buffer_2 download_words_of_all_while_next_function_runs
    download_words_of_next_channel download_words_swapped download_words_with_end_word download_left_retired_part
    download_refused_first_short_of_words download_refused_first_short_beside_words
    download_refused_second_short_of_words download_refused_second_short_beside_words
    download_refused_first_long_of_words download_refused_first_long_beside_words
    download_refused_both_empty download_refused_parted_early
    download_refused_1_of_no_channel download_refused_1_with_none_open download_refused_1_past_count
    download_refused_channel_0 download_refused_channel_5 download_refused_channel_255
    download_refused_with_low_bits_of_channel
    download_refused_end_one_past download_refused_end_past_depth download_refused_first_past_count
    download_refused_of_count_0 download_refused_of_depth_1 download_refused_on_closed_board
    download_refused_length_0_one_past download_refused_in_range_if_sum_wraps
    download_refused_first_in_range_in_16_bits download_refused_length_in_range_in_16_bits
    download_refused_first_below_0_if_signed download_refused_length_below_0_if_signed
    download_none_yet download_none_beside_open download_none_after_refused_opening
    download_none_of_length_0 download_none_past_count download_none_on_closed_board
    download_ended_by_group_end_event download_ended_by_group_end_command download_ended_by_group_end_with_start
    download_ended_by_group_end_while_disarmed download_ended_by_group_end_while_idle
    download_ended_by_group_end_of_empty_group download_ended_by_two_group_ends download_ended_on_two_channels_at_once
    download_ended_by_reset download_ended_by_reset_while_idle
    download_ended_by_board_opening download_ended_by_refused_board_opening download_ended_after_some_words
    download_kept_over_send download_kept_over_reply download_kept_over_reply_lost download_kept_over_reply_unasked
    download_kept_over_start download_kept_over_restart download_kept_over_resume download_kept_over_last_word
    download_kept_over_many_ticks download_kept_over_tag
    download_kept_over_command_asked download_kept_over_command_refused download_kept_over_command_sent
    download_kept_over_command_reply
    download_kept_over_arm download_kept_over_disarm download_kept_over_user_change download_kept_over_same_user
    download_kept_over_reset_without_d0 download_kept_over_event_of_no_meaning
    download_kept_over_status_read download_kept_over_count_read download_kept_over_register_write
    download_kept_over_setpoint_write download_kept_over_retired download_kept_over_voltages
    download_kept_over_opening_again download_kept_over_portion download_kept_over_length
    download_kept_over_portion_refused_1 download_kept_over_portion_refused_2 download_kept_over_portion_of_no_channel
    download_kept_over_refused_opening download_kept_over_refused_group_end_event
    download_kept_over_refused_group_end_command download_kept_over_refused_reset download_kept_over_refused_tick
    download_kept_over_refused_user
    download_kept_over_group_end_event_of_other_channel download_kept_over_group_end_command_of_other_channel
    download_kept_over_reset_of_other_channel download_kept_over_opening_of_other_channel
    download_kept_over_portion_of_other_channel
}

#[derive(Clone)]
pub struct Tally {
    /// By `Did`.
    pub counts: Vec<u64>,
    /// The replies whose CRC a status told to be right, as their 32 middle bits.
    pub crc_right: Vec<u32>,
    /// And those whose CRC it told to be wrong.
    pub crc_wrong: Vec<u32>,
    /// What happens now is shown to nobody, and not counted.
    pub is_hidden: bool,
}

impl Tally {
    pub fn new() -> Tally {
        Tally { counts: vec![0; DID.len()], crc_right: Vec::new(), crc_wrong: Vec::new(), is_hidden: false }
    }
    pub fn add(&mut self, d: Did) {
        if !self.is_hidden {
            self.counts[d as usize] += 1;
        }
    }
    pub fn join(&mut self, other: &Tally) {
        self.counts.iter_mut().zip(&other.counts).for_each(|(a, b)| *a += b);
        self.crc_right.extend(&other.crc_right);
        self.crc_wrong.extend(&other.crc_wrong);
    }
}
