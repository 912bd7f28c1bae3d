#!/bin/sh
# Fails where a function of a hot path stands in the archive by itself. The compiler puts a function that has one caller into it; with a second
# caller it may become a call, and the row that it stands for slower by half. Of a generic function each instance counts: its name goes on with `::<`.
#
#   inlined.sh [ARCHIVE]
set -eu
archive=${1:-$(cd "$(dirname "$0")" && pwd)/../target/liblogbuffer.a}
names=$(nm "$archive" | sed -n 's/^[0-9a-f]* [tT] //p')
case "$names" in *logbuffer_offer*) ;; *) echo "inlined.sh: no functions in $archive"; exit 1 ;; esac
for name in publication::fit::offer_fit publication::fit::claim_fit publication::fit::is_open publication::fit::in_terms publication::fit::in_step publication::fit::is_unpressed publication::judge::begin_position \
    publication::fit::offer_fragmented_fit logbuffer::term_appender::append_fragmented_fit logbuffer::term_appender::append_fit \
    logbuffer::term_appender::claim_fit logbuffer::term_appender::fits logbuffer::header::write_fragment logbuffer::header::write_claim \
    logbuffer::buffer_claim::commit_fit logbuffer::buffer_claim::read_all logbuffer::log_buffer_descriptor::is_sound logbuffer::log_buffer_descriptor::read_with \
    image::Image::poll_on image::frames::poll_term logbuffer::term_reader::read_on logbuffer::term_reader::walk_term \
    logbuffer::frame_descriptor::frame_at logbuffer::frame_descriptor::frame_inside logbuffer::frame_descriptor::whole_length \
    replay::frames::next_whole replay::frames::whole_from replay::frames::base_at replay::frames::give replay::frames::reach_of \
    replay::gathering::gather replay::gathering::take replay::gathering::turn_to replay::gathering::settle replay::gathering::enter replay::gathering::data_at \
    logbuffer::fragment_assembler::fragment_at logbuffer::fragment_assembler::lay_fragment logbuffer::fragment_assembler::place_of \
    tally::step::Stream::meet_at tally::step::Stream::meet tally::step::met_by capi::words::reading_in capi::words::record_in capi::words::tail_out capi::words::position_out capi::words::numbers; do
    if echo "$names" | grep -qx -e "$name" -e "$name::<.*>"; then
        echo "inlined.sh: $name stands in the archive, and should be in its caller"
        exit 1
    fi
done
echo "the functions of the hot paths are in their callers"
