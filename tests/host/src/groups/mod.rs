//! The groups of tests, in the order in which they run.

mod blocks;
mod bytes;
mod duty_runs;
mod ends_memory;
mod fields;
mod fields_memory;
mod headers;
mod links;
mod master;
mod master_memory;
mod master_words;
mod memory;
mod message_memory;
mod message_writers;
mod old_answers;
mod receiver;
mod receiver_words;
mod refusals;
mod sender;
mod sender_interruptions;
mod sender_words;
mod short_histories;
mod states;
mod station;
mod station_interrupts;
mod station_memory;
mod station_words;
mod stations_links;
mod stations_runs;
mod stations_walk;
mod streams;
mod version;
mod writers;

use crate::cases;
use crate::compare::{Compare, Outcome};

pub type Group = fn(&mut Compare) -> Outcome;

const ALL: &[(&str, Group)] = &[
    ("version", version::version),
    ("every_file_of_cases", cases::every_file),
    ("cases_of_blocks", |compare| cases::file(compare, "blocks")),
    ("cases_of_messages", |compare| {
        cases::file(compare, "messages")
    }),
    ("cases_of_fields", |compare| cases::file(compare, "fields")),
    ("cases_of_the_receiver", |compare| {
        cases::file(compare, "receiver")
    }),
    ("cases_of_the_sender", |compare| {
        cases::file(compare, "sender")
    }),
    ("cases_of_control_blocks", |compare| {
        cases::file(compare, "control")
    }),
    ("cases_of_the_station", |compare| {
        cases::file(compare, "station")
    }),
    ("cases_of_the_master", |compare| {
        cases::file(compare, "master")
    }),
    ("valid_blocks", blocks::valid_blocks),
    ("real_messages", blocks::real_messages),
    ("damaged_fields", blocks::damaged_fields),
    ("checksum_numbers", blocks::checksum_numbers),
    ("count_numbers", blocks::count_numbers),
    ("lengths_around_limit", blocks::lengths_around_limit),
    ("every_byte_everywhere", blocks::every_byte_everywhere),
    ("put_in_delimiters", blocks::put_in_delimiters),
    ("forbidden_bytes", bytes::forbidden_bytes),
    ("adjacent_pairs", bytes::adjacent_pairs),
    ("checksum_look_alikes", bytes::checksum_look_alikes),
    ("count_look_alikes", bytes::count_look_alikes),
    ("whole_block_check", blocks::whole_block_check),
    ("every_short_stream", streams::every_short_stream),
    ("streams_in_parts", streams::streams_in_parts),
    ("streams_of_many_blocks", streams::streams_of_many_blocks),
    ("large_blocks", streams::large_blocks),
    ("blocks_without_end", streams::blocks_without_end),
    ("any_state", states::any_state),
    ("held_blocks", states::held_blocks),
    ("lengths_in_state", states::lengths_in_state),
    ("position_limit", states::position_limit),
    ("between_words", states::between_words),
    ("fresh_state", states::fresh_state),
    ("setting_pairs", refusals::setting_pairs),
    ("setting_numbers", refusals::setting_numbers),
    ("refusal_order", refusals::refusal_order),
    ("writer", writers::writer),
    ("writer_refusals", writers::writer_refusals),
    ("writer_starts", writers::writer_starts),
    ("guard_pages", memory::guard_pages),
    ("real_headers", headers::real_headers),
    ("real_fields", headers::real_fields),
    ("damaged_messages", headers::damaged_messages),
    ("control_id_lengths", headers::control_id_lengths),
    ("field_numbers", headers::field_numbers),
    ("every_byte_in_messages", headers::every_byte_in_messages),
    ("every_short_message", headers::every_short_message),
    ("random_messages", headers::random_messages),
    ("long_messages", headers::long_messages),
    ("answers_written", message_writers::answers_written),
    ("answer_refusals", message_writers::answer_refusals),
    ("message_starts", message_writers::message_starts),
    ("control_messages", message_writers::control_messages),
    ("control_refusals", message_writers::control_refusals),
    ("message_words", message_writers::message_words),
    ("message_guard_pages", message_memory::message_guard_pages),
    ("field_positions", fields::field_positions),
    ("real_walks", fields::real_walks),
    ("damaged_walks", fields::damaged_walks),
    ("written_walks", fields::written_walks),
    ("every_short_walk", fields::every_short_walk),
    ("delimiter_offsets", fields::delimiter_offsets),
    ("random_walks", fields::random_walks),
    ("long_walks", fields::long_walks),
    ("field_words", fields_memory::field_words),
    ("field_guard_pages", fields_memory::field_guard_pages),
    ("receiver_fresh", receiver::receiver_fresh),
    ("receiver_table", receiver::receiver_table),
    ("receiver_reports", receiver::receiver_reports),
    ("receiver_histories", receiver::receiver_histories),
    ("receiver_large_limits", receiver::receiver_large_limits),
    (
        "receiver_largest_numbers",
        receiver::receiver_largest_numbers,
    ),
    (
        "receiver_corrupt_histories",
        receiver::receiver_corrupt_histories,
    ),
    ("receiver_refusals", receiver_words::receiver_refusals),
    ("receiver_words", receiver_words::receiver_words),
    (
        "receiver_corrupt_words",
        receiver_words::receiver_corrupt_words,
    ),
    ("refused_numbers", receiver::refused_numbers),
    ("other_block_types", receiver_words::other_block_types),
    ("data_of_no_block", receiver::data_of_no_block),
    ("sender_histories", sender::sender_histories),
    ("sender_progress", sender::sender_progress),
    ("sender_largest_numbers", sender::sender_largest_numbers),
    ("sender_sends", sender::sender_sends),
    ("ended_at_any_time", sender_interruptions::ended_at_any_time),
    ("crash_at_any_time", sender_interruptions::crash_at_any_time),
    ("corrupt_histories", sender_interruptions::corrupt_histories),
    ("any_beginning", sender_words::any_beginning),
    ("every_answer", sender_words::every_answer),
    ("corrupt_words", sender_words::corrupt_words),
    ("small_words", sender_words::small_words),
    ("random_words", sender_words::random_words),
    (
        "delivered_before_resynchronizing",
        sender_words::delivered_before_resynchronizing,
    ),
    ("sender_refusals", sender_words::sender_refusals),
    ("control_blocks", sender_words::control_blocks),
    ("links", links::links),
    ("link_deviations", links::link_deviations),
    ("duty_runs", duty_runs::duty_runs),
    ("late_answer", old_answers::late_answer),
    ("answer_of_earlier_run", old_answers::answer_of_earlier_run),
    ("one_old_answer", old_answers::one_old_answer),
    ("ends_guard_pages", ends_memory::ends_guard_pages),
    ("station_fresh", station_words::station_fresh),
    ("station_numbers", station_words::station_numbers),
    ("station_pairs", station_words::station_pairs),
    ("station_lengths", station_words::station_lengths),
    ("station_histories", station::station_histories),
    ("station_progress", station::station_progress),
    ("station_repeats", station::station_repeats),
    (
        "station_short_histories",
        short_histories::station_short_histories,
    ),
    ("station_interrupts", station_interrupts::station_interrupts),
    ("station_enquiries", station_interrupts::station_enquiries),
    ("station_large_buffers", station::station_large_buffers),
    ("station_opened_again", station::station_opened_again),
    ("station_other_lengths", station::station_other_lengths),
    (
        "station_corrupt_words",
        station_words::station_corrupt_words,
    ),
    ("station_small_words", station_words::station_small_words),
    ("station_reply_words", station_words::station_reply_words),
    ("station_refusals", station_words::station_refusals),
    ("station_short_words", station_words::station_short_words),
    ("station_guard_pages", station_memory::station_guard_pages),
    ("master_fresh", master_words::master_fresh),
    ("master_numbers", master_words::master_numbers),
    ("master_pairs", master_words::master_pairs),
    ("master_histories", master::master_histories),
    (
        "master_short_histories",
        short_histories::master_short_histories,
    ),
    ("master_messages", master::master_messages),
    ("master_sizes", master::master_sizes),
    ("master_limit", master::master_limit),
    ("master_large_words", master_words::master_large_words),
    ("master_large_starts", master_words::master_large_starts),
    ("master_large_parts", master_words::master_large_parts),
    ("master_corrupt_words", master_words::master_corrupt_words),
    ("master_small_words", master_words::master_small_words),
    ("master_reply_words", master_words::master_reply_words),
    ("master_refusals", master_words::master_refusals),
    ("master_short_words", master_words::master_short_words),
    ("master_guard_pages", master_memory::master_guard_pages),
    ("stations_links", stations_links::stations_links),
    ("broken_premises", stations_links::broken_premises),
    ("wrong_readings", stations_links::wrong_readings),
    ("premise_runs", stations_runs::premise_runs),
    ("reading_runs", stations_runs::reading_runs),
    ("stations_walk", stations_walk::stations_walk),
    (
        "stations_turning_walk",
        stations_walk::stations_turning_walk,
    ),
    ("stations_long_walk", stations_walk::stations_long_walk),
    ("stations_noisy_walk", stations_walk::stations_noisy_walk),
];

/// Groups that take too long for every run, and run only where they are named.
const APART: &[(&str, Group)] = &[("stations_large_walk", stations_walk::stations_large_walk)];

pub fn is_apart(name: &str) -> bool {
    APART.iter().any(|(apart, _)| *apart == name)
}

/// The groups to run: the one of this name, or all but those apart.
pub fn named(only: Option<&str>) -> Vec<(&'static str, Group)> {
    match only {
        None => ALL.to_vec(),
        Some(wanted) => {
            let known = ALL.iter().chain(APART);
            known.filter(|(name, _)| *name == wanted).copied().collect()
        }
    }
}
