//! Tests that the structs of sys.rs lie in memory as a C compiler for x86-64 lays out those of include/logbuffer.h, and so as the words of
//! crates/capi/specs/Words.antt: a field of 64 bits is a word, one of 32 bits a half of one, a flag a byte.

use crate::sys::*;
use std::mem::{offset_of, size_of};

#[test]
fn values_have_the_sizes_of_c() {
    assert_eq!(size_of::<Record>(), 112);
    assert_eq!(size_of::<Claim>(), 16);
    assert_eq!(size_of::<Header>(), 40);
    assert_eq!(size_of::<Image>(), 16);
    assert_eq!(size_of::<Assembler>(), 200);
    assert_eq!(size_of::<Replay>(), 216);
    assert_eq!(size_of::<Card>(), 20);
    assert_eq!(size_of::<Sums>(), 32);
    assert_eq!(size_of::<Partitions>(), 96);
}

#[test]
fn fields_of_values_have_the_offsets_of_c() {
    assert_eq!(offset_of!(Record, tails), 0);
    assert_eq!([offset_of!(Record, active_term_count), offset_of!(Record, initial_term_id)], [24, 28]);
    assert_eq!([offset_of!(Record, term_length), offset_of!(Record, mtu_length)], [32, 36]);
    assert_eq!([offset_of!(Record, session_id), offset_of!(Record, stream_id)], [40, 44]);
    assert_eq!(offset_of!(Record, is_connected), 48);
    assert_eq!(offset_of!(Record, publication_limit), 56);
    assert_eq!(offset_of!(Record, end_of_stream_position), 64);
    assert_eq!(offset_of!(Record, is_closed), 72);
    assert_eq!([offset_of!(Record, slowest_position), offset_of!(Record, cleared_marks)], [80, 88]);
    assert_eq!([offset_of!(Record, active_transport_count), offset_of!(Record, page_size)], [96, 100]);
    assert_eq!(offset_of!(Record, correlation_id), 104);
    assert_eq!([offset_of!(Header, flags), offset_of!(Header, frame_type), offset_of!(Header, term_offset)], [5, 6, 8]);
    assert_eq!([offset_of!(Header, reserved_value), offset_of!(Header, position)], [24, 32]);
    assert_eq!([offset_of!(Claim, partition), offset_of!(Claim, offset)], [0, 4]);
    assert_eq!([offset_of!(Claim, length), offset_of!(Claim, term_id)], [8, 12]);
    assert_eq!([offset_of!(Image, position), offset_of!(Image, session_id)], [0, 8]);
    assert_eq!([offset_of!(Image, is_closed), offset_of!(Image, is_eos)], [12, 13]);
    assert_eq!([offset_of!(Assembler, count), offset_of!(Assembler, ids), offset_of!(Assembler, held)], [0, 8, 72]);
    assert_eq!([offset_of!(Replay, image), offset_of!(Replay, assembler)], [0, 16]);
    assert_eq!([offset_of!(Card, find), offset_of!(Card, trench), offset_of!(Card, context)], [4, 8, 10]);
    assert_eq!([offset_of!(Card, material), offset_of!(Card, weight)], [12, 16]);
}

#[test]
fn replies_have_the_sizes_of_c() {
    assert_eq!(size_of::<PositionReply>(), 16);
    assert_eq!([size_of::<OfferReply>(), size_of::<ClaimReply>()], [16, 32]);
    assert_eq!(size_of::<SpanReply>(), 24);
    assert_eq!(size_of::<AppendReply>(), 16);
    assert_eq!(size_of::<AppendClaimReply>(), 32);
    assert_eq!(size_of::<HeaderReply>(), 48);
    assert_eq!(size_of::<FrameLengthReply>(), 16);
    assert_eq!(size_of::<ReadReply>(), 16);
    assert_eq!(size_of::<ScanReply>(), 16);
    assert_eq!(size_of::<GapReply>(), 32);
    assert_eq!(size_of::<AvailabilityReply>(), 16);
    assert_eq!(size_of::<PollReply>(), 16);
    assert_eq!(size_of::<PeekReply>(), 24);
    assert_eq!(size_of::<BlockReply>(), 32);
    assert_eq!(size_of::<EndOfStreamReply>(), 8);
    assert_eq!(size_of::<AssemblyReply>(), 24);
    assert_eq!(size_of::<NextReply>(), 24);
    assert_eq!(size_of::<BatchReply>(), 16);
    assert_eq!(size_of::<CountReply>(), 24);
    assert_eq!(size_of::<CardWriteReply>(), 16);
    assert_eq!(size_of::<CardReadReply>(), 40);
    assert_eq!(size_of::<TallyReply>(), 56);
    assert_eq!(size_of::<PartitionTallyReply>(), 152);
    assert_eq!(size_of::<HoldingReply>(), 360);
}

#[test]
fn fields_of_replies_have_the_offsets_of_c() {
    assert_eq!([offset_of!(PositionReply, code), offset_of!(PositionReply, position)], [0, 8]);
    assert_eq!([offset_of!(ClaimReply, position), offset_of!(ClaimReply, claim)], [8, 16]);
    assert_eq!([offset_of!(OfferReply, rule), offset_of!(OfferReply, position), offset_of!(ClaimReply, rule)], [4, 8, 4]);
    assert_eq!([offset_of!(AppendClaimReply, is_tripped), offset_of!(AppendClaimReply, offset)], [4, 8]);
    assert_eq!(offset_of!(AppendClaimReply, claim), 16);
    assert_eq!([offset_of!(ReadReply, fragments), offset_of!(ReadReply, offset)], [4, 8]);
    assert_eq!([offset_of!(AvailabilityReply, padding), offset_of!(AvailabilityReply, available)], [4, 8]);
    assert_eq!([offset_of!(PollReply, fragments), offset_of!(PollReply, entries), offset_of!(PollReply, partition)], [4, 8, 12]);
    assert_eq!([offset_of!(PeekReply, entries), offset_of!(PeekReply, position), offset_of!(PeekReply, partition)], [4, 8, 16]);
    assert_eq!([offset_of!(FrameLengthReply, state), offset_of!(FrameLengthReply, length)], [4, 8]);
    assert_eq!([offset_of!(GapReply, is_gap), offset_of!(GapReply, is_being_written)], [4, 5]);
    assert_eq!([offset_of!(GapReply, term_id), offset_of!(GapReply, offset)], [8, 16]);
    assert_eq!(
        [offset_of!(BlockReply, partition), offset_of!(BlockReply, offset), offset_of!(BlockReply, session_id)],
        [4, 8, 24]
    );
    assert_eq!([offset_of!(NextReply, code), offset_of!(NextReply, place), offset_of!(NextReply, start)], [0, 4, 8]);
    assert_eq!([offset_of!(BatchReply, code), offset_of!(BatchReply, messages)], [0, 8]);
    assert_eq!([offset_of!(CardReadReply, card), offset_of!(CardReadReply, note_start)], [4, 24]);
    assert_eq!([offset_of!(TallyReply, stop), offset_of!(TallyReply, position), offset_of!(TallyReply, sums)], [4, 8, 24]);
    assert_eq!([offset_of!(PartitionTallyReply, sums), offset_of!(PartitionTallyReply, partitions)], [24, 56]);
    assert_eq!([offset_of!(HoldingReply, position), offset_of!(HoldingReply, card), offset_of!(HoldingReply, ends)], [8, 24, 48]);
    assert_eq!([offset_of!(HoldingReply, note_length), offset_of!(HoldingReply, note)], [96, 104]);
    assert_eq!([offset_of!(Ends, trench), offset_of!(Ends, weight), offset_of!(Ends, note)], [8, 32, 40]);
    assert_eq!([offset_of!(Sums, headers), offset_of!(Sums, slack), offset_of!(Sums, padding)], [8, 16, 24]);
    assert_eq!([offset_of!(Partitions, p1), offset_of!(Partitions, p2)], [32, 64]);
}
