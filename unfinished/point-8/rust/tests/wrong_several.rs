//! A test of the tests: a third call for several records, which can be given one slip at a time. With no slip it agrees with `several` on
//! every batch; with any slip some batches tell.
//!
//! It cuts all bytes into pieces first, by a reader that goes by the places that `encoding` has, then looks for what follows the fourth,
//! and answers each piece in memory of its own.

#[macro_use]
mod slips;

use reference::comparison::{agree, compare, outcome};
use reference::detectors::fast;
use reference::detectors::several::{self, Report};
use reference::format::block::Block;
use reference::format::encoding::{unfold, Opening, Place};
use reference::format::record::{check_width, read_plain, read_so_far, Refusal};
use reference::format::reply::{decode, room, OPENING};
use reference::inputs::numbers::{range, row};
use reference::inputs::several::{all, groups, readings, Batch, Reading};
use slips::is_seen_often;

slips! {
    /// How many records a call takes, and 18.
    slips_of_more {
        /// A call takes at most so many.
        Most(usize) in [1, 2, 3, 5, 6, 7].map(Most),
        /// It takes any number.
        NoMost,
        /// Bytes behind the fourth record are not looked at.
        MoreIgnored,
        /// They are refused by this, and four replies stand.
        MoreBy(Refusal) in [1, 2, 13, 18].map(MoreBy),
        /// The report is right, and four replies are written.
        MoreWritten,
        /// The report has the four records, or the length of their replies; nothing is written.
        MoreCounted,
        MoreMeasured,
        /// 18 is given only where a whole record follows, or an opening.
        MoreIfWhole,
        MoreIfOpening,
        /// 14 of one of the four precedes 18: the replies before it stand, or nothing is written.
        RoomBeforeMore(bool) in [true, false].map(RoomBeforeMore),
        /// 18 is given though one of the four is refused by this.
        MoreThough(Refusal) in [1].into_iter().chain(3..=12).chain(15..=17).map(MoreThough),
        /// 18 is given where there are more than four openings among the bytes.
        MoreByOpenings,
    }
    /// Where a record ends, and what follows it.
    slips_of_pieces {
        /// Bytes behind the first record are refused by 13: nothing is answered, or the first record is.
        OneAlone(bool) in [false, true].map(OneAlone),
        /// Bytes behind a record that begin none are refused by this.
        StrayBy(Refusal) in [2, 13, 18].map(StrayBy),
        /// They are not looked at; or not if they are fewer than four, or all 0.
        StrayIgnored,
        ShortIgnored,
        ZerosIgnored,
        /// No bytes at all have this number.
        NoneBy(Refusal) in [0, 2, 13].map(NoneBy),
        /// The end of the bytes is taken for a record that is refused, unless four are answered.
        EndRefused,
        /// A record ends where the next opening is.
        CutByOpenings,
        /// Behind the first record bytes up to the next opening are left out where they begin no record, or where they are refused at all.
        StraySkipped,
        RefusedSkipped,
        /// Behind the first record, one that opens otherwise is refused by 1, or read as if it opened the same.
        OtherRefused,
        OtherTaken,
        /// Behind the first record, one that opens so is refused by 1.
        LaterRefused(Opening) in Opening::ALL.map(LaterRefused),
    }
    /// Where replies stand, and 14.
    slips_of_buffers {
        /// Each record is given the whole buffer.
        WholeBuffer,
        /// Each is asked to have room in the whole buffer; replies stand in their places, as far as there is room.
        RoomOfWhole,
        /// The next reply stands behind the room that was asked for.
        NextAtRoom,
        /// The room that was asked for is taken off the buffer; replies stand in their places.
        RoomsTaken,
        /// The next reply stands so many bytes too far back.
        NextAt(isize) in [-1, 1].map(NextAt),
        /// The room behind the first reply is taken for so much more.
        RoomOff(isize) in [-1, 1].map(RoomOff),
        /// There must be room for all records at first.
        RoomForAll,
        /// Each record has a quarter of the buffer.
        Quarters,
        /// A record that finds too little room is left out.
        ShortSkipped,
        /// 14 is given as soon as M, Q and N are read.
        RoomAtSizes,
        /// Bytes behind the replies are cleared: all, or the room of the last.
        RestCleared,
        RoomCleared,
        /// A reply's opening is written before the record is read.
        OpeningAtOnce,
        /// Replies are reported, and none is written; or only the first, or the last.
        Unwritten,
        FirstWritten,
        LastWritten,
    }
    /// What a refusal ends, and what stands.
    slips_of_refusals {
        /// Where a record is refused, the replies before it are cleared.
        EarlierCleared,
        /// The buffer is as it was, and the replies are reported.
        EarlierUnwritten,
        /// The same, and nothing is reported.
        EarlierTakenBack,
        /// All records are checked at first, and nothing is written where one of them is refused.
        CheckedFirst,
        /// A record's refusal precedes 14 of a record before it.
        CheckedBeforeRoom,
    }
    slips_of_reports {
        CountAndLengthExchanged,
        /// The refused record is counted.
        RefusedCounted,
        CountedFromZero,
        /// The length is that of the last reply, or of the first.
        LengthOfLast,
        LengthOfFirst,
        /// That of the records, of the rooms asked for, or of the buffer.
        LengthOfRecords,
        LengthOfRooms,
        LengthOfBuffer,
        /// Where replies stand, no refusal is reported.
        NumberLost,
        NumberMinus,
        /// The refused record's place is reported in place of the number.
        PlaceForNumber,
        /// Where a record is refused, no count is reported, or no length.
        CountLost,
        LengthLost,
        /// Where nothing is answered, count and length are not written.
        ReportUnwritten,
    }
    /// What passes from one record to another.
    slips_of_allowances {
        /// The next record's vectors have the nodes that are left, or have less by what was spent.
        LeftPassed,
        SpentTaken,
        /// D, C or W of the first record is kept.
        ShareKept,
        ClipKept,
        WeakKept,
    }
}

fn every_slip() -> Vec<Slip> {
    let ended = [slips_of_refusals(), slips_of_reports(), slips_of_allowances()].concat();
    [slips_of_more(), slips_of_pieces(), slips_of_buffers(), ended].concat()
}

// Pieces.

/// A record, or all bytes from where one is refused.
#[derive(Clone)]
struct Piece {
    bytes: Vec<u8>,
    refusal: Option<Refusal>,
}

/// How long the record is that bytes begin with; a refusal may be let pass.
fn record_length(bytes: &[u8], passing: Option<Refusal>) -> Result<usize, Refusal> {
    let unknown = (passing == Some(1) && bytes.len() >= Opening::LENGTH).then_some(Opening::One);
    let opening = Opening::of(bytes).or(unknown).ok_or(1_u32)?;
    let mut rest = &bytes[Opening::LENGTH..];
    let mut numbers = vec![];
    for &place in &opening.sizes()[..3] {
        take(place, &mut rest, &mut numbers, passing)?;
    }
    if numbers.iter().any(|&size| size > 99) {
        return Err(2);
    }
    for place in opening.places(numbers[0], numbers[1], numbers[2]).into_iter().skip(3) {
        take(place, &mut rest, &mut numbers, passing)?;
    }
    Ok(bytes.len() - rest.len())
}

fn take(place: Place, rest: &mut &[u8], numbers: &mut Vec<i64>, passing: Option<Refusal>) -> Result<(), Refusal> {
    let bytes = *rest;
    let number = match read_plain(rest) {
        Err(3) if passing == Some(3) => {
            let groups = bytes[..bytes.len() - rest.len()].iter().rev();
            groups.fold(0, |number, &group| number * 128 + i64::from(group % 128))
        }
        other => other?,
    };
    let number = if place.is_folded() { unfold(number) } else { number };
    check(place, numbers, number).or_else(|refusal| if passing == Some(refusal) { Ok(()) } else { Err(refusal) })?;
    numbers.push(number);
    Ok(())
}

fn check(place: Place, before: &[i64], number: i64) -> Result<(), Refusal> {
    if place == Place::Bits {
        return check_width(before[0], number);
    }
    let (least, greatest) = range(place, before);
    if (least..=greatest).contains(&number) {
        Ok(())
    } else {
        Err(row(place))
    }
}

/// Where the next opening is, behind the first byte.
fn next_opening(bytes: &[u8]) -> Option<usize> {
    (1..bytes.len()).find(|&at| Opening::of(&bytes[at..]).is_some())
}

/// All bytes, cut up to the first piece that is refused.
fn pieces(slip: Slip, records: &[u8]) -> Vec<Piece> {
    let mut all: Vec<Piece> = vec![];
    let mut rest = records;
    loop {
        let piece = first_piece(slip, &all, rest);
        let is_skipped = match slip {
            StraySkipped => piece.refusal == Some(1),
            RefusedSkipped => piece.refusal.is_some(),
            _ => false,
        };
        match next_opening(rest) {
            Some(next) if is_skipped && !all.is_empty() => rest = &rest[next..],
            _ => {
                rest = &rest[piece.bytes.len()..];
                all.push(piece);
            }
        }
        if rest.is_empty() {
            break;
        }
    }
    end_with(slip, &mut all);
    all
}

/// The piece that is cut off next, behind these.
fn first_piece(slip: Slip, before: &[Piece], rest: &[u8]) -> Piece {
    let first = before.first().and_then(|piece| Opening::of(&piece.bytes));
    let (own, is_later) = (Opening::of(rest), !before.is_empty());
    let mut bytes = rest.to_vec();
    let is_refused = match slip {
        OtherRefused => is_later && own != first,
        LaterRefused(opening) => is_later && own == Some(opening),
        _ => false,
    };
    match (slip, first, own) {
        (OtherTaken, Some(first), Some(_)) => bytes[3] = first.bytes()[3],
        (CutByOpenings, ..) => bytes.truncate(next_opening(rest).unwrap_or(rest.len())),
        _ => (),
    }
    match record_length(&bytes, None) {
        _ if is_refused => Piece { bytes, refusal: Some(1) },
        Err(refusal) => Piece { bytes, refusal: Some(refusal) },
        Ok(length) if slip == CutByOpenings && length < bytes.len() => Piece { bytes, refusal: Some(13) },
        Ok(length) => Piece { bytes: bytes[..length].to_vec(), refusal: None },
    }
}

/// What becomes of the last piece, where it is not the first.
fn end_with(slip: Slip, all: &mut Vec<Piece>) {
    if slip == EndRefused && all.len() < 4 && all.iter().all(|piece| piece.refusal.is_none()) {
        all.push(Piece { bytes: vec![], refusal: Some(1) });
    }
    let is_behind = all.len() > 1;
    let Some(last) = all.last_mut().filter(|last| is_behind && last.refusal == Some(1)) else {
        return;
    };
    if let StrayBy(refusal) = slip {
        last.refusal = Some(refusal);
    }
    let is_ignored = match slip {
        StrayIgnored => true,
        ShortIgnored => last.bytes.len() < Opening::LENGTH,
        ZerosIgnored => last.bytes.iter().all(|&byte| byte == 0),
        _ => false,
    };
    if is_ignored {
        all.pop();
    }
}

// 18.

/// Is 18 given? Four records pass, and bytes follow the fourth.
fn is_more(slip: Slip, records: &[u8], pieces: &[Piece]) -> bool {
    let most = match slip {
        Most(most) => most,
        NoMost => usize::MAX,
        _ => 4,
    };
    let follow = pieces.len() > most && pieces[..most].iter().all(|piece| piece.refusal.is_none());
    match slip {
        MoreIfWhole => follow && pieces[most].refusal.is_none(),
        MoreIfOpening => follow && pieces[most].refusal != Some(1),
        MoreThough(refusal) => follow_though(records, refusal),
        MoreByOpenings => follow || (0..records.len()).filter(|&at| Opening::of(&records[at..]).is_some()).count() > most,
        _ => follow,
    }
}

/// Do bytes follow four records, of which some may be refused by this?
fn follow_though(records: &[u8], refusal: Refusal) -> bool {
    let mut rest = records;
    for _ in 0..4 {
        match record_length(rest, Some(refusal)) {
            Ok(length) => rest = &rest[length..],
            Err(_) => return false,
        }
    }
    !rest.is_empty()
}

/// What 18 comes to.
fn refuse_more(slip: Slip, pieces: &[Piece], replies: &mut [u8]) -> Report {
    let nothing = Report { number: 18, ..Report::default() };
    let mut written = replies.to_vec();
    let four = answer(Clean, &pieces[..pieces.len().min(4)], &mut written);
    let (is_written, report) = match slip {
        MoreIgnored => (true, four),
        MoreBy(refusal) if four.number == 0 => (true, Report { number: refusal, ..four }),
        MoreBy(_) => (true, four),
        MoreWritten => (true, nothing),
        MoreCounted => (false, Report { count: 4, ..nothing }),
        MoreMeasured => (false, Report { length: four.length, ..nothing }),
        RoomBeforeMore(stands) if four.number == 14 => (stands, if stands { four } else { Report { number: 14, ..nothing } }),
        ReportUnwritten => (false, unwritten(18)),
        _ => (false, nothing),
    };
    if is_written {
        replies.copy_from_slice(&written);
    }
    report
}

// Answers.

/// What has been answered so far.
#[derive(Default)]
struct Answered {
    lengths: Vec<usize>,
    rooms: Vec<usize>,
    /// How many bytes the records have.
    taken: usize,
    first: Option<Block>,
    /// Nodes that the last record's vectors had, and nodes that they walked.
    had: i64,
    walked: i64,
    number: Refusal,
}

impl Answered {
    fn length(&self) -> usize {
        self.lengths.iter().sum()
    }
}

fn call(slip: Slip, records: &[u8], replies: &mut [u8]) -> Report {
    let pieces = pieces(slip, records);
    if let NoneBy(number) = slip {
        if records.is_empty() {
            return Report { number, ..Report::default() };
        }
    }
    if is_more(slip, records, &pieces) {
        return refuse_more(slip, &pieces, replies);
    }
    let early = refused_at_first(slip, &pieces, replies.len());
    if early > 0 {
        return Report { number: early, ..Report::default() };
    }
    answer(slip, &pieces, replies)
}

/// What a slip refuses before anything is answered, 0 if nothing.
fn refused_at_first(slip: Slip, pieces: &[Piece], length: usize) -> Refusal {
    let first = pieces.iter().find_map(|piece| piece.refusal);
    let rooms = || pieces.iter().filter_map(|piece| Block::read(&piece.bytes).ok()).map(|block| block.room());
    match slip {
        OneAlone(false) if pieces.len() > 1 && pieces[0].refusal.is_none() => 13,
        RoomForAll if rooms().sum::<usize>() > length => first.filter(|_| pieces.len() == 1).unwrap_or(14),
        CheckedFirst => first.unwrap_or(0),
        _ => 0,
    }
}

/// Answers pieces until one is refused.
fn answer(slip: Slip, pieces: &[Piece], replies: &mut [u8]) -> Report {
    let before = replies.to_vec();
    let mut answered = Answered::default();
    for (at, piece) in pieces.iter().enumerate() {
        let number = match answer_one(slip, piece, &mut answered, replies) {
            Some(14) if slip == ShortSkipped => continue,
            Some(14) if slip == CheckedBeforeRoom => pieces[at..].iter().find_map(|piece| piece.refusal).or(Some(14)),
            None if slip == OneAlone(true) && pieces.len() > 1 => Some(13),
            other => other,
        };
        if let Some(number) = number {
            answered.number = number;
            break;
        }
    }
    leave(slip, &answered, &before, replies);
    report(slip, &answered, replies.len())
}

/// Answers a piece, or says what it is refused by.
fn answer_one(slip: Slip, piece: &Piece, answered: &mut Answered, replies: &mut [u8]) -> Option<Refusal> {
    let (start, left) = places(slip, answered, replies.len());
    if slip == OpeningAtOnce {
        put(replies, start, &OPENING);
    }
    if slip == RoomAtSizes && asked_at_sizes(&piece.bytes) > left {
        return Some(14);
    }
    if piece.refusal.is_some() {
        return piece.refusal;
    }
    let block = altered(slip, answered, Block::read(&piece.bytes).expect("a record"));
    let mut own = vec![0; left];
    let returned = fast::detect(&block.record(), &mut own);
    if returned < 0 {
        return Some(-returned as Refusal);
    }
    let length = returned as usize;
    put(replies, start, &own[..length]);
    if slip == RoomCleared {
        put(replies, start + length, &vec![0; block.room() - length]);
    }
    answered.lengths.push(length);
    answered.rooms.push(block.room());
    answered.taken += piece.bytes.len();
    answered.had = block.vectors.len() as i64 * block.share;
    answered.walked = decode(&own[..length]).iter().map(|answer| answer.nodes).sum();
    answered.first.get_or_insert(block);
    None
}

/// Where the next reply starts, and how much room it is given.
fn places(slip: Slip, answered: &Answered, length: usize) -> (usize, usize) {
    let (end, asked, is_later) = (answered.length(), answered.rooms.iter().sum::<usize>(), !answered.lengths.is_empty());
    let (all, rest) = (length, length.saturating_sub(end));
    match slip {
        WholeBuffer => (0, all),
        RoomOfWhole => (end, all),
        NextAtRoom => (asked, all.saturating_sub(asked)),
        RoomsTaken => (end, all.saturating_sub(asked)),
        NextAt(more) if is_later => (end.saturating_add_signed(more), rest),
        RoomOff(more) if is_later => (end, rest.saturating_add_signed(more)),
        Quarters => (answered.lengths.len() * (all / 4), all / 4),
        _ => (end, rest),
    }
}

/// Puts bytes into the buffer, as far as there is room.
fn put(replies: &mut [u8], start: usize, bytes: &[u8]) {
    let start = start.min(replies.len());
    let end = (start + bytes.len()).min(replies.len());
    replies[start..end].copy_from_slice(&bytes[..end - start]);
}

/// The room that a record asks for by its first three numbers, as far as these are right.
fn asked_at_sizes(bytes: &[u8]) -> usize {
    match read_so_far(bytes)[..] {
        [streams, bits, vectors, ..] => room(streams as usize, bits as usize, vectors as usize),
        _ => 0,
    }
}

/// The block that is searched, with what it has from the records before it.
fn altered(slip: Slip, answered: &Answered, block: Block) -> Block {
    let Some(first) = &answered.first else {
        return block;
    };
    let (count, least) = (block.vectors.len() as i64, block.streams as i64);
    match slip {
        LeftPassed => Block { share: (block.share + (answered.had - answered.walked) / count).min(17_043_520), ..block },
        SpentTaken => Block { share: (block.share - answered.walked / count).max(least), ..block },
        ShareKept => Block { share: first.share.max(least), ..block },
        ClipKept => Block { clip: first.clip, weak: block.weak.min(first.clip), ..block },
        WeakKept if block.opening.has_weak() => Block { weak: first.weak.min(block.clip), ..block },
        WeakKept if first.opening.has_weak() => {
            let weak = first.weak.min(block.clip);
            block.with_weak(weak)
        }
        _ => block,
    }
}

/// What the buffer is left with.
fn leave(slip: Slip, answered: &Answered, before: &[u8], replies: &mut [u8]) {
    let end = answered.length().min(replies.len());
    let is_refused = answered.number > 0;
    let first = answered.lengths.first().map_or(0, |&first| first.min(end));
    let last = answered.lengths.last().map_or(0, |&last| end.saturating_sub(last));
    match slip {
        RestCleared => replies[end..].fill(0),
        Unwritten => replies.copy_from_slice(before),
        FirstWritten => replies[first..].copy_from_slice(&before[first..]),
        LastWritten => replies[..last].copy_from_slice(&before[..last]),
        EarlierCleared if is_refused => replies[..end].fill(0),
        EarlierUnwritten | EarlierTakenBack if is_refused => replies.copy_from_slice(before),
        _ => (),
    }
}

/// What is reported where count and length are not written: what stood there.
fn unwritten(number: Refusal) -> Report {
    Report { count: u32::MAX, length: usize::MAX, number }
}

fn report(slip: Slip, answered: &Answered, room: usize) -> Report {
    let right = Report { count: answered.lengths.len() as u32, length: answered.length(), number: answered.number };
    let is_refused = right.number > 0;
    match slip {
        CountAndLengthExchanged => Report { count: right.length as u32, length: right.count as usize, ..right },
        RefusedCounted if is_refused => Report { count: right.count + 1, ..right },
        CountedFromZero => Report { count: right.count.saturating_sub(1), ..right },
        LengthOfLast => Report { length: answered.lengths.last().copied().unwrap_or(0), ..right },
        LengthOfFirst => Report { length: answered.lengths.first().copied().unwrap_or(0), ..right },
        LengthOfRecords => Report { length: answered.taken, ..right },
        LengthOfRooms => Report { length: answered.rooms.iter().sum(), ..right },
        LengthOfBuffer => Report { length: room, ..right },
        NumberLost if right.count > 0 => Report { number: 0, ..right },
        NumberMinus => Report { number: right.number.wrapping_neg(), ..right },
        PlaceForNumber if is_refused => Report { number: right.count + 1, ..right },
        EarlierTakenBack if is_refused => Report { number: right.number, ..Report::default() },
        CountLost if is_refused => Report { count: 0, ..right },
        LengthLost if is_refused => Report { length: 0, ..right },
        ReportUnwritten if right.count == 0 => unwritten(right.number),
        _ => right,
    }
}

// The comparisons.

/// Do `several` and this call come to the same, with every buffer to try?
fn agree_on(slip: Slip, batch: &Batch) -> bool {
    agree(several::fast, |records, replies| call(slip, records, replies), &batch.records()[..], batch.rooms.iter().copied())
}

#[test]
fn with_no_slip_every_batch_agrees() {
    compare(groups(), |batch| {
        assert!(agree_on(Clean, &batch), "{:02X?}", batch.records());
        call(Clean, &batch.records(), &mut vec![0; batch.most_room()]).number == 0
    });
}

#[test]
fn every_slip_is_seen_often() {
    let counts = [slips_of_more(), slips_of_pieces(), slips_of_buffers()].map(|slips| slips.len());
    let more = [slips_of_refusals(), slips_of_reports(), slips_of_allowances()].map(|slips| slips.len());
    assert_eq!((counts, more), ([34, 20, 18], [5, 14, 5]));
    let batches: Vec<Batch> = all().collect();
    for slip in every_slip() {
        assert!(is_seen_often(batches.iter(), |batch| !agree_on(slip, batch)), "{slip:?}");
    }
}

/// The readings alone see each of them, but for those that need a record of wrong sizes which is whole as these call for.
#[test]
fn every_slip_is_seen_by_a_reading() {
    let sees = |slip: Slip, reading: &Reading| {
        let (report, replies) =
            outcome(|records: &[u8], replies| call(slip, records, replies), &reading.records[..], reading.room);
        report != reading.report || replies != reading.buffer()
    };
    let readings = readings();
    for slip in every_slip() {
        let is_seen = readings.iter().any(|reading| sees(slip, reading));
        assert_eq!(is_seen, !matches!(slip, MoreThough(4..=6 | 15)), "{slip:?}");
    }
}
